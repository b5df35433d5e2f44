//! Runs a program over generated runs and compares what it prints with the listing, line by line.

use crate::files;
use crate::generate::{self, Run};
use crate::listing::write_listing;
use std::ffi::{OsStr, OsString};
use std::fs::{self, File};
use std::path::{Path, PathBuf};
use std::process::{self, Command, Output};
use std::sync::atomic::{AtomicU64, Ordering};
use std::thread;
use std::time::{SystemTime, UNIX_EPOCH};

/// What came of a comparison: how many runs agreed, and for each other its seed and what differed, in rising seed.
pub struct Tally {
    pub passed: u64,
    pub failed: Vec<(u64, String)>,
}

/// Compares the program with the listing over `count` seeds from `first`, on every processor.
pub fn compare(first: u64, count: u64, program: &[OsString]) -> Result<Tally, String> {
    let scratch = Scratch::new()?;
    let program: Vec<OsString> = program.iter().map(|word| from_anywhere(word)).collect();
    let next = AtomicU64::new(0);
    let failures = thread::scope(|scope| {
        let workers: Vec<_> = (0..processors())
            .map(|_| scope.spawn(|| compare_some(first, count, &next, &program, &scratch)))
            .collect();
        let results = workers.into_iter().map(|worker| {
            let stopped = |_| Err("a comparison did not end".to_string());
            worker.join().unwrap_or_else(stopped)
        });
        results.collect::<Result<Vec<_>, String>>()
    })?;
    let mut failed = failures.concat();
    failed.sort();
    Ok(Tally {
        passed: count - failed.len() as u64,
        failed,
    })
}

fn processors() -> usize {
    thread::available_parallelism().map_or(2, |number| number.get())
}

/// Takes seeds that no other thread took, until none is left, and gathers the differences.
fn compare_some(
    first: u64,
    count: u64,
    next: &AtomicU64,
    program: &[OsString],
    scratch: &Scratch,
) -> Result<Vec<(u64, String)>, String> {
    let mut failed = Vec::new();
    loop {
        let number = next.fetch_add(1, Ordering::Relaxed);
        if number >= count {
            return Ok(failed);
        }
        let seed = first.wrapping_add(number);
        if let Some(difference) = compare_one(seed, program, scratch)? {
            failed.push((seed, difference));
        }
    }
}

/// What differs in the run of one seed, if anything does.
fn compare_one(
    seed: u64,
    program: &[OsString],
    scratch: &Scratch,
) -> Result<Option<String>, String> {
    let run = generate::run(seed);
    let mut expected = Vec::new();
    write_listing(run.setup.as_deref(), &run.operations, &mut expected)
        .map_err(|error| error.to_string())?;
    let output = run_program(program, &run, &scratch.0.join(seed.to_string()))?;
    let ending = (!output.status.success()).then(|| format!("ended with {}", output.status));
    Ok(first_difference(&expected, &output.stdout).or(ending))
}

/// Runs the program in a folder that holds nothing but the setup, with the operations on its standard input.
fn run_program(program: &[OsString], run: &Run, folder: &Path) -> Result<Output, String> {
    let operations = folder.with_extension(files::OPERATIONS);
    files::create_folder(folder)?;
    files::write_setup_file(folder, run)?;
    files::write(&operations, &run.operations)?;
    let input = File::open(&operations).map_err(|error| files::at(&operations, error))?;
    let output = Command::new(&program[0])
        .args(&program[1..])
        .current_dir(folder)
        .stdin(input)
        .output()
        .map_err(|error| files::at(Path::new(&program[0]), error))?;
    fs::remove_dir_all(folder).map_err(|error| files::at(folder, error))?;
    fs::remove_file(&operations).map_err(|error| files::at(&operations, error))?;
    Ok(output)
}

/// The first line in which two listings differ; a line keeps its end, so a missing one shows too.
pub fn first_difference(expected: &[u8], printed: &[u8]) -> Option<String> {
    let mut expected = expected.split_inclusive(|&byte| byte == b'\n');
    let mut printed = printed.split_inclusive(|&byte| byte == b'\n');
    for line in 1.. {
        let (due, got) = (expected.next(), printed.next());
        if due != got {
            return Some(format!(
                "line {line}: due {}, printed {}",
                said(due),
                said(got)
            ));
        }
        if due.is_none() {
            break;
        }
    }
    None
}

fn said(line: Option<&[u8]>) -> String {
    line.map_or("nothing".to_string(), |line| {
        format!("{:?}", String::from_utf8_lossy(line))
    })
}

/// A path of this folder as it reads from any other, since each run has a folder of its own.
fn from_anywhere(word: &OsStr) -> OsString {
    let path = Path::new(word);
    let is_path = path.components().count() > 1 && path.exists();
    let absolute = is_path.then(|| path.canonicalize().ok()).flatten();
    absolute.map_or(word.to_os_string(), PathBuf::into_os_string)
}

/// A fresh folder that is gone at the end.
struct Scratch(PathBuf);

impl Scratch {
    fn new() -> Result<Scratch, String> {
        let time = SystemTime::now().duration_since(UNIX_EPOCH);
        let moment = time.map_or(0, |time| time.as_nanos());
        let name = format!("second-{}-{moment}", process::id());
        let folder = std::env::temp_dir().join(name);
        fs::create_dir(&folder).map_err(|error| files::at(&folder, error))?;
        Ok(Scratch(folder))
    }
}

impl Drop for Scratch {
    fn drop(&mut self) {
        // Nothing is left to do for a folder that cannot be removed.
        let _ = fs::remove_dir_all(&self.0);
    }
}
