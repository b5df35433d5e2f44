//! The folders of `examples/`: records, the texts they were packed from, and listings.

use crate::said::listing;
use second::history::Operation;
use second::map::Address;
use second::records::{read_operation, write_operation, OPERATION_LENGTH};
use second::text::{pack_operations, pack_setup};
use std::fs;
use std::path::{Path, PathBuf};

const EXAMPLES: [&str; 4] = ["P5", "P8", "P8-stop", "P9"];

/// Those that keep the listing of the old bank rule, and the lines in which it differs.
const BY_THE_LOW_BITS: [(&str, &[usize]); 2] = [("P8", &[3, 4, 5]), ("P9", &[6])];

fn file(example: &str, name: &str) -> PathBuf {
    let examples = Path::new(env!("CARGO_MANIFEST_DIR")).join("../examples");
    examples.join(example).join(name)
}

fn bytes(example: &str, name: &str) -> Vec<u8> {
    fs::read(file(example, name)).unwrap()
}

fn text(example: &str, name: &str) -> String {
    fs::read_to_string(file(example, name)).unwrap()
}

#[test]
fn the_records_are_what_the_texts_pack_to() {
    for example in EXAMPLES {
        let setup = pack_setup(&text(example, "setup.txt"));
        assert_eq!(setup, Ok(bytes(example, "setup")), "{example}");
        let operations = pack_operations(&text(example, "operations.txt"));
        assert_eq!(operations, Ok(bytes(example, "operations")), "{example}");
    }
}

#[test]
fn the_listings_are_those_of_the_records() {
    for example in EXAMPLES {
        let printed = listing(
            Some(&bytes(example, "setup")),
            &bytes(example, "operations"),
        );
        assert_eq!(printed, text(example, "listing"), "{example}");
    }
}

#[test]
fn the_listings_by_the_low_bits_differ_where_they_must() {
    for (example, due) in BY_THE_LOW_BITS {
        let old = text(example, "listing-by-the-low-bits");
        let new = text(example, "listing");
        assert_eq!(old.lines().count(), new.lines().count(), "{example}");
        let lines = old.lines().zip(new.lines()).enumerate();
        let differing = lines.filter(|(_, (old, new))| old != new);
        let differing: Vec<usize> = differing.map(|(line, _)| line).collect();
        assert_eq!(differing, due, "{example}");
    }
}

/// With a = 2, s = 1, u = 1 and v = 0 the low bit of 1 and 2 is the top bit of 2 and 1, and 0 and 3 have two equal bits. So
/// the old rule told of a run what the new one tells where 1 and 2 are exchanged.
#[test]
fn the_listings_by_the_low_bits_are_those_of_the_old_rule() {
    for (example, _) in BY_THE_LOW_BITS {
        let operations = bytes(example, "operations");
        let operations = operations.chunks(OPERATION_LENGTH).map(read_operation);
        let exchanged = operations.map(|it| write_operation(exchanged(it.unwrap())));
        let exchanged: Vec<u8> = exchanged.flatten().collect();
        let printed = listing(Some(&bytes(example, "setup")), &exchanged);
        assert_eq!(
            printed,
            text(example, "listing-by-the-low-bits"),
            "{example}"
        );
    }
}

fn exchanged(operation: Operation) -> Operation {
    let other = |Address(it)| match it {
        1 => Address(2),
        2 => Address(1),
        same => Address(same),
    };
    match operation {
        Operation::Idle => Operation::Idle,
        Operation::Read(address) => Operation::Read(other(address)),
        Operation::Write(address, word) => Operation::Write(other(address), word),
    }
}
