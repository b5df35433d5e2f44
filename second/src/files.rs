//! The files of a run. An error names the path it met.

use crate::generate::Run;
use std::fs;
use std::io::{self, ErrorKind};
use std::path::Path;

pub const SETUP: &str = "setup";
pub const OPERATIONS: &str = "operations";

pub fn read(path: &Path) -> Result<Vec<u8>, String> {
    fs::read(path).map_err(|error| at(path, error))
}

pub fn write(path: &Path, bytes: &[u8]) -> Result<(), String> {
    fs::write(path, bytes).map_err(|error| at(path, error))
}

pub fn create_folder(path: &Path) -> Result<(), String> {
    fs::create_dir_all(path).map_err(|error| at(path, error))
}

/// The run in a folder. A missing setup is part of a run, missing operations are an error.
pub fn read_run(folder: &Path) -> Result<Run, String> {
    let operations = read(&folder.join(OPERATIONS))?;
    let path = folder.join(SETUP);
    let setup = match fs::read(&path) {
        Ok(setup) => Some(setup),
        Err(error) if error.kind() == ErrorKind::NotFound => None,
        Err(error) => return Err(at(&path, error)),
    };
    Ok(Run { setup, operations })
}

/// Writes a run into a folder, which then holds no setup where the run has none.
pub fn write_run(folder: &Path, run: &Run) -> Result<(), String> {
    create_folder(folder)?;
    write(&folder.join(OPERATIONS), &run.operations)?;
    write_setup_file(folder, run)
}

/// Writes the setup alone.
pub fn write_setup_file(folder: &Path, run: &Run) -> Result<(), String> {
    let path = folder.join(SETUP);
    match &run.setup {
        Some(setup) => write(&path, setup),
        None => match fs::remove_file(&path) {
            Err(error) if error.kind() != ErrorKind::NotFound => Err(at(&path, error)),
            _ => Ok(()),
        },
    }
}

/// The error with the place it was met at.
pub fn at(path: &Path, error: io::Error) -> String {
    format!("{}: {error}", path.display())
}
