//! The commands of the second program.

use second::compare::compare;
use second::draw::drawing;
use second::listing::write_listing;
use second::{files, generate, text};
use std::ffi::OsString;
use std::io::{self, Read, Write};
use std::path::Path;
use std::process::ExitCode;

const USAGE: &str = "\
second listing FOLDER               what cyclerun must print for FOLDER/setup and FOLDER/operations
second draw FOLDER                  the same run as a picture (SVG), one column a call
second generate SEED FOLDER         writes the setup and the operations of a generated run into FOLDER
second compare SEED COUNT PROGRAM.. compares a command with the listings of COUNT generated runs
second pack setup|operations        text on standard input to records on standard output
second unpack setup|operations      records on standard input to text on standard output";

/// Why a call ends early.
enum Ending {
    WrongCall,
    Failed(String),
    /// Everything was said already.
    Differing,
}

impl From<String> for Ending {
    fn from(message: String) -> Ending {
        Ending::Failed(message)
    }
}

fn main() -> ExitCode {
    let arguments: Vec<OsString> = std::env::args_os().skip(1).collect();
    match run(&arguments) {
        Ok(()) => ExitCode::SUCCESS,
        Err(Ending::Differing) => ExitCode::FAILURE,
        Err(Ending::Failed(message)) => {
            eprintln!("second: {message}");
            ExitCode::FAILURE
        }
        Err(Ending::WrongCall) => {
            eprintln!("{USAGE}");
            ExitCode::from(2)
        }
    }
}

fn run(arguments: &[OsString]) -> Result<(), Ending> {
    let words: Vec<&str> = arguments
        .iter()
        .map(|argument| argument.to_str().unwrap_or_default())
        .collect();
    match words[..] {
        ["listing", _] => listing(Path::new(&arguments[1])),
        ["draw", _] => draw(Path::new(&arguments[1])),
        ["generate", seed, _] => write_generated(number(seed)?, Path::new(&arguments[2])),
        ["compare", seed, count, _, ..] => {
            compare_all(number(seed)?, number(count)?, &arguments[3..])
        }
        ["pack", "setup"] => print(&text::pack_setup(&input_text()?)?),
        ["pack", "operations"] => print(&text::pack_operations(&input_text()?)?),
        ["unpack", "setup"] => print(text::unpack_setup(&input()?)?.as_bytes()),
        ["unpack", "operations"] => unpack_operations(&input()?),
        _ => Err(Ending::WrongCall),
    }
}

fn listing(folder: &Path) -> Result<(), Ending> {
    let run = files::read_run(folder)?;
    let mut listing = io::BufWriter::with_capacity(1 << 16, io::stdout().lock());
    write_listing(run.setup.as_deref(), &run.operations, &mut listing)
        .and_then(|()| listing.flush())
        .map_err(output_error)
}

fn draw(folder: &Path) -> Result<(), Ending> {
    let run = files::read_run(folder)?;
    print(drawing(run.setup.as_deref(), &run.operations)?.as_bytes())
}

fn write_generated(seed: u64, folder: &Path) -> Result<(), Ending> {
    Ok(files::write_run(folder, &generate::run(seed))?)
}

fn compare_all(first: u64, count: u64, program: &[OsString]) -> Result<(), Ending> {
    let tally = compare(first, count, program)?;
    let mut report = String::new();
    for (seed, difference) in &tally.failed {
        report += &format!("seed {seed}: {difference}\n");
    }
    report += &format!("{} passed, {} failed\n", tally.passed, tally.failed.len());
    print(report.as_bytes())?;
    if tally.failed.is_empty() {
        Ok(())
    } else {
        Err(Ending::Differing)
    }
}

/// Prints the operations up to the first bad record, and reports that one.
fn unpack_operations(records: &[u8]) -> Result<(), Ending> {
    let (text, ending) = text::unpack_operations(records);
    print(text.as_bytes())?;
    Ok(ending?)
}

fn number(word: &str) -> Result<u64, Ending> {
    word.parse().map_err(|_| Ending::WrongCall)
}

fn input() -> Result<Vec<u8>, String> {
    let mut bytes = Vec::new();
    let read = io::stdin().lock().read_to_end(&mut bytes);
    read.map_err(|error| format!("standard input: {error}"))?;
    Ok(bytes)
}

fn input_text() -> Result<String, String> {
    String::from_utf8(input()?).map_err(|error| format!("standard input: {error}"))
}

fn print(bytes: &[u8]) -> Result<(), Ending> {
    let mut output = io::stdout().lock();
    output
        .write_all(bytes)
        .and_then(|()| output.flush())
        .map_err(output_error)
}

fn output_error(error: io::Error) -> Ending {
    Ending::Failed(format!("standard output: {error}"))
}
