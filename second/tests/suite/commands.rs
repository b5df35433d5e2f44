//! The commands, run as a person runs them.

use crate::said::listing;
use second::compare::first_difference;
use second::draw::drawing;
use second::{files, generate};
use std::fs::{self, File};
use std::path::{Path, PathBuf};
use std::process::{Command, Output, Stdio};

const PROGRAM: &str = env!("CARGO_BIN_EXE_second");

/// A folder of this test alone.
fn folder(name: &str) -> PathBuf {
    let folder = Path::new(env!("CARGO_TARGET_TMPDIR")).join(name);
    if folder.exists() {
        fs::remove_dir_all(&folder).unwrap();
    }
    fs::create_dir_all(&folder).unwrap();
    folder
}

fn run(arguments: &[&str]) -> Output {
    let mut command = Command::new(PROGRAM);
    command
        .args(arguments)
        .stdin(Stdio::null())
        .output()
        .unwrap()
}

fn run_on(arguments: &[&str], input: &Path) -> Output {
    let input = File::open(input).unwrap();
    let mut command = Command::new(PROGRAM);
    command.args(arguments).stdin(input).output().unwrap()
}

fn text(bytes: &[u8]) -> String {
    String::from_utf8(bytes.to_vec()).unwrap()
}

#[test]
fn a_wrong_call_prints_the_usage() {
    for arguments in [
        &[][..],
        &["list"],
        &["listing"],
        &["listing", "a", "b"],
        &["draw"],
        &["generate", "x", "folder"],
        &["compare", "1", "2"],
        &["compare", "1", "-2", "true"],
        &["pack"],
        &["pack", "word"],
        &["unpack", "listing"],
    ] {
        let output = run(arguments);
        assert_eq!(output.status.code(), Some(2), "{arguments:?}");
        assert!(text(&output.stderr).starts_with("second listing FOLDER"));
    }
}

#[test]
fn listing_prints_the_listing_of_a_generated_run() {
    let folder = folder("listing");
    let path = folder.to_str().unwrap();
    for seed in 0..60 {
        assert!(run(&["generate", &seed.to_string(), path]).status.success());
        let due = generate::run(seed);
        assert_eq!(files::read_run(&folder), Ok(due.clone()), "seed {seed}");
        let printed = run(&["listing", path]);
        assert!(printed.status.success());
        let due = listing(due.setup.as_deref(), &due.operations);
        assert_eq!(text(&printed.stdout), due, "seed {seed}");
    }
}

#[test]
fn draw_prints_a_picture_and_refuses_a_refused_setup() {
    let folder = folder("draw");
    let path = folder.to_str().unwrap();
    for seed in 0..60 {
        assert!(run(&["generate", &seed.to_string(), path]).status.success());
        let printed = run(&["draw", path]);
        let due = generate::run(seed);
        match drawing(due.setup.as_deref(), &due.operations) {
            Ok(picture) => assert_eq!(text(&printed.stdout), picture, "seed {seed}"),
            Err(message) => {
                assert_eq!(printed.status.code(), Some(1), "seed {seed}");
                assert_eq!(text(&printed.stderr), format!("second: {message}\n"));
                assert!(printed.stdout.is_empty());
            }
        }
    }
}

#[test]
fn a_file_that_cannot_be_read_or_written_is_named() {
    let folder = folder("unreadable");
    let path = folder.to_str().unwrap();
    let operations = folder.join("operations");
    let missing = run(&["listing", path]);
    assert_eq!(missing.status.code(), Some(1));
    assert!(text(&missing.stderr).contains(operations.to_str().unwrap()));
    fs::create_dir(&operations).unwrap();
    let unwritable = run(&["generate", "1", path]);
    assert_eq!(unwritable.status.code(), Some(1));
    assert!(text(&unwritable.stderr).contains(operations.to_str().unwrap()));
}

#[test]
fn pack_and_unpack_turn_each_other_round() {
    let folder = folder("pack");
    for (kind, said) in [
        ("setup", "mode 1 a 2 s 1 m 2 k 1 delta 2 c 3 u 1 v 0\n"),
        ("operations", "idle\nread 1\nwrite 1 10\n"),
    ] {
        let (lines, records) = (folder.join("text"), folder.join("records"));
        fs::write(&lines, said).unwrap();
        let packed = run_on(&["pack", kind], &lines);
        assert!(packed.status.success());
        fs::write(&records, packed.stdout).unwrap();
        let unpacked = run_on(&["unpack", kind], &records);
        assert!(unpacked.status.success());
        assert_eq!(text(&unpacked.stdout), said);
    }
}

#[test]
fn damaged_input_of_pack_and_unpack_is_reported() {
    let input = folder("damaged").join("input");
    for (arguments, damaged, message) in [
        (["pack", "setup"], &b"mode 1\nb 3\n"[..], "second: line 2: "),
        (["pack", "operations"], b"idle\nread\n", "second: line 2: "),
        (
            ["pack", "operations"],
            b"idle\n\xff\n",
            "second: standard input: ",
        ),
        (["unpack", "setup"], &[0; 19], "second: record 0: "),
        (["unpack", "operations"], &[0; 23], "second: record 1: "),
    ] {
        fs::write(&input, damaged).unwrap();
        let output = run_on(&arguments, &input);
        assert_eq!(output.status.code(), Some(1), "{arguments:?}");
        assert!(text(&output.stderr).starts_with(message), "{arguments:?}");
    }
}

/// Compares a shell command, in which "$0" is this program, over 40 seeds.
fn compare_shell(command: &str) -> Output {
    run(&["compare", "0", "40", "sh", "-c", command, PROGRAM])
}

#[test]
fn compare_passes_a_program_that_prints_the_listings() {
    let output = compare_shell("cat > operations && exec \"$0\" listing .");
    assert_eq!(text(&output.stdout), "40 passed, 0 failed\n");
    assert_eq!(output.status.code(), Some(0));
}

#[test]
fn compare_names_the_seed_and_the_line_of_a_difference() {
    let output = compare_shell("cat > operations && \"$0\" listing . | sed '/ 5 /s/ 5 / 0 /'");
    let due = (0..40).filter_map(|seed| {
        let run = generate::run(seed);
        let listing = listing(run.setup.as_deref(), &run.operations);
        let altered = listing.replace(" 5 ", " 0 ");
        let difference = first_difference(listing.as_bytes(), altered.as_bytes());
        Some(format!("seed {seed}: {}\n", difference?))
    });
    let due: Vec<String> = due.collect();
    assert!(!due.is_empty());
    let last = format!("{} passed, {} failed\n", 40 - due.len(), due.len());
    assert_eq!(text(&output.stdout), due.concat() + &last);
    assert_eq!(output.status.code(), Some(1));
}

#[test]
fn compare_fails_a_program_that_ends_badly() {
    let output = compare_shell("cat > operations && \"$0\" listing . && exit 3");
    assert!(text(&output.stdout).ends_with("\n0 passed, 40 failed\n"));
    assert_eq!(output.status.code(), Some(1));
}

#[test]
fn compare_reports_a_program_that_cannot_be_started() {
    let output = run(&["compare", "0", "2", "no-such-program"]);
    assert_eq!(output.status.code(), Some(1));
    assert!(text(&output.stderr).starts_with("second: no-such-program: "));
}

#[test]
fn compare_finds_a_program_by_a_relative_path() {
    let folder = folder("relative");
    let script = format!("cat > operations && exec {PROGRAM} listing .");
    fs::write(folder.join("script"), script).unwrap();
    let mut command = Command::new(PROGRAM);
    command.args(["compare", "0", "5", "sh", "./script"]);
    let output = command.current_dir(&folder).output().unwrap();
    assert_eq!(text(&output.stdout), "5 passed, 0 failed\n");
}

#[test]
fn the_first_difference_is_found() {
    let difference =
        |due: &str, printed: &str| first_difference(due.as_bytes(), printed.as_bytes());
    assert_eq!(difference("", ""), None);
    assert_eq!(difference("0 0 -\n1 0 7\n", "0 0 -\n1 0 7\n"), None);
    let line = |said: &str| Some(said.to_string());
    let printed = difference("0 0 -\n1 0 7\n", "0 0 -\n1 0 8\n");
    assert_eq!(
        printed,
        line("line 2: due \"1 0 7\\n\", printed \"1 0 8\\n\"")
    );
    let printed = difference("0 0 -\n", "0 0 -\n1 0 8\n");
    assert_eq!(printed, line("line 2: due nothing, printed \"1 0 8\\n\""));
    let printed = difference("0 0 -\n", "0 0 -");
    assert_eq!(printed, line("line 1: due \"0 0 -\\n\", printed \"0 0 -\""));
}
