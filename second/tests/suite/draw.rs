//! The picture of a run.

use crate::said::listing;
use second::draw::{drawing, MOST_CALLS};
use second::records::OPERATION_LENGTH;
use second::{generate, text};
use std::fs;
use std::path::Path;

const SETUP: &str = "mode 1 a 2 s 1 m 2 k 1 delta 2 c 3 u 1 v 0";

fn stored(path: &str) -> Vec<u8> {
    fs::read(Path::new(env!("CARGO_MANIFEST_DIR")).join("..").join(path)).unwrap()
}

fn picture(setup: &str, operations: &str) -> String {
    let setup = text::pack_setup(setup).unwrap();
    let operations = text::pack_operations(&operations.replace(", ", "\n")).unwrap();
    drawing(Some(&setup), &operations).unwrap()
}

fn count(picture: &str, said: &str) -> usize {
    picture.matches(said).count()
}

/// Every tag that opens is closed in its turn, and nothing follows the last.
fn is_balanced(picture: &str) -> bool {
    let mut open = Vec::new();
    for tag in picture.split('<').skip(1) {
        let tag = match tag.split_once('>') {
            Some((tag, _)) => tag,
            None => return false,
        };
        let name = tag.split([' ', '/']).find(|name| !name.is_empty());
        if tag.starts_with('/') {
            if open.pop() != name {
                return false;
            }
        } else if !tag.ends_with('/') {
            open.extend(name);
        }
    }
    open.is_empty() && picture.ends_with("</svg>\n")
}

#[test]
fn the_stored_picture_is_that_of_p9() {
    let (setup, operations) = (
        stored("examples/P9/setup"),
        stored("examples/P9/operations"),
    );
    let drawn = drawing(Some(&setup), &operations).unwrap();
    assert!(is_balanced(&drawn));
    let calls = operations.len() / OPERATION_LENGTH;
    assert_eq!(count(&drawn, "class=\"call\""), calls);
    assert!(drawn.contains(">10</text>") && drawn.contains(">0</text>"));
    assert_eq!(drawn.as_bytes(), stored("docs/p9.svg"));
}

#[test]
fn the_stored_picture_of_a_read_behind_a_write_is_that_run() {
    let setup = "mode 1 a 1 s 0 m 2 k 2 delta 4 c 4 u 1 v 0";
    let idle = "idle, idle, idle, idle";
    let drawn = picture(setup, &format!("write 0 5, {idle}, read 0, {idle}"));
    assert_eq!(drawn.as_bytes(), stored("docs/behind.svg"));
}

#[test]
fn generated_runs_have_a_column_a_call() {
    for seed in 0..200 {
        let run = generate::run(seed);
        let listing = listing(run.setup.as_deref(), &run.operations);
        match drawing(run.setup.as_deref(), &run.operations) {
            Ok(drawn) => {
                let due = listing.lines().count().min(MOST_CALLS);
                assert!(is_balanced(&drawn), "seed {seed}");
                assert_eq!(count(&drawn, "class=\"call\""), due, "seed {seed}");
            }
            Err(message) => assert_eq!(listing, message + "\n", "seed {seed}"),
        }
    }
}

#[test]
fn a_long_run_says_what_is_left_out() {
    let idle = vec!["idle"; MOST_CALLS].join(", ");
    assert!(!picture(SETUP, &idle).contains("the first"));
    let longer = picture(SETUP, &format!("{idle}, idle"));
    assert!(longer.contains("the first 24 of 25 records"));
}

#[test]
fn a_line_is_dashed_until_the_word_leaves() {
    let reads = |drawn: &str| (count(drawn, "<line"), count(drawn, "stroke-dasharray"));
    assert_eq!(reads(&picture(SETUP, "read 1, idle")), (1, 1));
    assert_eq!(reads(&picture(SETUP, "read 1, idle, idle")), (1, 0));
    // The second read is dropped, the address of the third is beyond memory.
    assert_eq!(reads(&picture(SETUP, "read 0, read 1, read 4")), (1, 1));
}

#[test]
fn a_refused_setup_has_no_picture() {
    assert_eq!(drawing(None, &[]), Err("setup 1".to_string()));
    let large = text::pack_setup(&SETUP.replace(" a 2 ", " a 13 ")).unwrap();
    assert_eq!(drawing(Some(&large), &[]), Err("setup 8".to_string()));
}
