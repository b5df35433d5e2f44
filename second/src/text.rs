//! Records as a person writes them: `write 1 10`, one operation a line, and `mode 1 a 2 ..` for a setup.

use crate::history::Operation;
use crate::map::Address;
use crate::records::{read_operation, read_setup, write_operation, write_setup, OPERATION_LENGTH};
use crate::setup::Setup;

/// The numbers of a setup in the order of its record, and the largest that its bytes hold.
const NUMBERS: [(&str, u32); 9] = [
    ("mode", u8::MAX as u32),
    ("a", u8::MAX as u32),
    ("s", u8::MAX as u32),
    ("m", u8::MAX as u32),
    ("k", u16::MAX as u32),
    ("delta", u16::MAX as u32),
    ("c", u16::MAX as u32),
    ("u", u32::MAX),
    ("v", u32::MAX),
];

/// The record of a setup text: each of the nine names once, with its number after it. Ranges are not tested, so that
/// setups can be written that are to be refused.
pub fn pack_setup(text: &str) -> Result<Vec<u8>, String> {
    let mut given = [None; NUMBERS.len()];
    for (line, words) in lines(text) {
        for pair in words.chunks(2) {
            let (at, number) = setup_number(pair)
                .filter(|&(at, _)| given[at].is_none())
                .ok_or_else(|| {
                    format!("line {line}: not a number of a setup: {}", pair.join(" "))
                })?;
            given[at] = Some(number);
        }
    }
    if let Some(at) = given.iter().position(Option::is_none) {
        return Err(format!("the setup has no number {}", NUMBERS[at].0));
    }
    Ok(write_setup(&setup_of(given.map(Option::unwrap_or_default))))
}

/// Which of the numbers a name and its number give.
fn setup_number(pair: &[&str]) -> Option<(usize, u32)> {
    let (name, number) = match pair {
        [name, number] => (name, number),
        _ => return None,
    };
    let at = NUMBERS.iter().position(|(known, _)| known == name)?;
    let number = number.parse().ok()?;
    (number <= NUMBERS[at].1).then_some((at, number))
}

/// The numbers are known to fit their bytes.
fn setup_of([mode, a, s, m, k, delta, c, u, v]: [u32; NUMBERS.len()]) -> Setup {
    Setup {
        mode: mode as u8,
        a: a as u8,
        s: s as u8,
        m: m as u8,
        k: k as u16,
        delta: delta as u16,
        c: c as u16,
        u,
        v,
    }
}

/// The records of an operations text.
pub fn pack_operations(text: &str) -> Result<Vec<u8>, String> {
    let mut records = Vec::new();
    for (line, words) in lines(text) {
        let operation = operation_of(&words)
            .ok_or_else(|| format!("line {line}: not an operation: {}", words.join(" ")))?;
        records.extend(write_operation(operation));
    }
    Ok(records)
}

fn operation_of(words: &[&str]) -> Option<Operation> {
    match words {
        ["idle"] => Some(Operation::Idle),
        ["read", address] => Some(Operation::Read(Address(address.parse().ok()?))),
        ["write", address, word] => Some(Operation::Write(
            Address(address.parse().ok()?),
            word.parse().ok()?,
        )),
        _ => None,
    }
}

/// The words of each line with its number from 1; blank lines and what follows a `#` are left out.
fn lines(text: &str) -> impl Iterator<Item = (usize, Vec<&str>)> {
    let words = text.lines().map(|line| {
        let said = line.split('#').next().unwrap_or_default();
        said.split_whitespace().collect::<Vec<_>>()
    });
    (1..).zip(words).filter(|(_, words)| !words.is_empty())
}

/// The text of a setup record.
pub fn unpack_setup(record: &[u8]) -> Result<String, String> {
    let setup = read_setup(record).ok_or("record 0: not a setup")?;
    let Setup {
        mode,
        a,
        s,
        m,
        k,
        delta,
        c,
        u,
        v,
    } = setup;
    Ok(format!(
        "mode {mode} a {a} s {s} m {m} k {k} delta {delta} c {c} u {u} v {v}\n"
    ))
}

/// The text of the operation records before the first bad one, and what is wrong with that one.
pub fn unpack_operations(records: &[u8]) -> (String, Result<(), String>) {
    let mut text = String::new();
    for (number, record) in records.chunks(OPERATION_LENGTH).enumerate() {
        match read_operation(record) {
            Some(operation) => text += &line_of(operation),
            None => return (text, Err(format!("record {number}: not an operation"))),
        }
    }
    (text, Ok(()))
}

fn line_of(operation: Operation) -> String {
    match operation {
        Operation::Idle => "idle\n".to_string(),
        Operation::Read(Address(address)) => format!("read {address}\n"),
        Operation::Write(Address(address), word) => format!("write {address} {word}\n"),
    }
}
