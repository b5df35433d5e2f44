//! What `cyclerun` must print.

use crate::answer::Answer;
use crate::history::Word;
use crate::port::Port;
use crate::records::{read_operation, read_setup, OPERATION_LENGTH};
use crate::setup::Configuration;
use std::io::{self, Write};

/// The room of `cyclerun`: the largest a, C and B·K that it holds.
pub const ROOM_A: u32 = 12;
pub const ROOM_C: usize = 1024;
pub const ROOM_ENTRIES: usize = 1024;

/// Writes the listing of a run over the file `setup`, if there is one, and the operations of standard input.
pub fn write_listing(
    setup: Option<&[u8]>,
    operations: &[u8],
    listing: &mut impl Write,
) -> io::Result<()> {
    match admitted(setup) {
        Ok(configuration) => write_lines(configuration, operations, listing),
        Err(answer) => writeln!(listing, "setup {answer}"),
    }
}

/// The configuration, or the answer with which the program ends.
pub fn admitted(setup: Option<&[u8]>) -> Result<Configuration, Answer> {
    let setup = setup.and_then(read_setup).ok_or(Answer::OutOfRange)?;
    let configuration = setup.checked().ok_or(Answer::OutOfRange)?;
    if has_room(&configuration) {
        Ok(configuration)
    } else {
        Err(Answer::NoRoom)
    }
}

/// Whether the program's own room is large enough, with the defaults in.
fn has_room(configuration: &Configuration) -> bool {
    configuration.a <= ROOM_A
        && configuration.c <= ROOM_C
        && configuration.banks() * configuration.k <= ROOM_ENTRIES
}

/// A line per record, up to and with the first bad one.
fn write_lines(
    configuration: Configuration,
    operations: &[u8],
    listing: &mut impl Write,
) -> io::Result<()> {
    let mut port = Port::fresh_start(configuration);
    for (number, record) in operations.chunks(OPERATION_LENGTH).enumerate() {
        let operation = match read_operation(record) {
            Some(operation) => operation,
            None => return write_line(number, Answer::BadRecord, None, listing),
        };
        let reply = port.call(operation);
        write_line(number, reply.answer, reply.delivery, listing)?;
    }
    Ok(())
}

fn write_line(
    number: usize,
    answer: Answer,
    delivery: Option<Word>,
    listing: &mut impl Write,
) -> io::Result<()> {
    match delivery {
        Some(word) => writeln!(listing, "{number} {answer} {word}"),
        None => writeln!(listing, "{number} {answer} -"),
    }
}
