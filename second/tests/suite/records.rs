//! House records: round trips, and every way in which one can be damaged.

use crate::said::{listing, setup};
use second::history::Operation;
use second::map::Address;
use second::random::Random;
use second::records::{
    read_operation, read_setup, write_operation, write_setup, OPERATION_LENGTH, SETUP_LENGTH,
};
use second::setup::Setup;

const WRITE: Operation = Operation::Write(Address(0x0403_0201), 0x0807_0605);
const READ: Operation = Operation::Read(Address(0x0403_0201));

#[test]
fn operations_have_the_bytes_of_document_01() {
    assert_eq!(write_operation(Operation::Idle), [0; OPERATION_LENGTH]);
    assert_eq!(write_operation(READ), [1, 0, 0, 0, 1, 2, 3, 4, 0, 0, 0, 0]);
    assert_eq!(write_operation(WRITE), [2, 0, 0, 0, 1, 2, 3, 4, 5, 6, 7, 8]);
}

#[test]
fn a_setup_has_the_bytes_of_document_01() {
    let setup = setup("mode 1 a 2 s 3 m 4 k 1541 delta 2055 c 2569 u 252579084 v 319951120");
    let due = [
        1, 2, 3, 4, 5, 6, 7, 8, 9, 10, 0, 0, 12, 13, 14, 15, 16, 17, 18, 19,
    ];
    assert_eq!(write_setup(&setup), due);
}

#[test]
fn a_written_operation_is_read_back() {
    let mut random = Random::new(1);
    for _ in 0..10_000 {
        let (address, word) = (Address(random.number() as u32), random.number() as u32);
        for operation in [
            Operation::Idle,
            Operation::Read(address),
            Operation::Write(address, word),
        ] {
            assert_eq!(read_operation(&write_operation(operation)), Some(operation));
        }
    }
}

#[test]
fn a_written_setup_is_read_back() {
    let mut random = Random::new(2);
    for _ in 0..10_000 {
        let setup = any_setup(&mut random);
        assert_eq!(read_setup(&write_setup(&setup)), Some(setup));
    }
}

fn any_setup(random: &mut Random) -> Setup {
    Setup {
        mode: random.number() as u8,
        a: random.number() as u8,
        s: random.number() as u8,
        m: random.number() as u8,
        k: random.number() as u16,
        delta: random.number() as u16,
        c: random.number() as u16,
        u: random.number() as u32,
        v: random.number() as u32,
    }
}

/// Bytes of few values, so that many of them are records.
fn any_bytes<const LENGTH: usize>(random: &mut Random) -> [u8; LENGTH] {
    std::array::from_fn(|_| random.pick(&[0, 0, 0, 0, 0, 0, 0, 1, 2, 3]))
}

#[test]
fn a_record_that_is_read_is_written_back() {
    let mut random = Random::new(3);
    let mut read = 0;
    for _ in 0..20_000 {
        let bytes: [u8; OPERATION_LENGTH] = any_bytes(&mut random);
        if let Some(operation) = read_operation(&bytes) {
            assert_eq!(write_operation(operation), bytes);
            read += 1;
        }
        let bytes: [u8; SETUP_LENGTH] = any_bytes(&mut random);
        if let Some(setup) = read_setup(&bytes) {
            assert_eq!(write_setup(&setup), bytes);
            read += 1;
        }
    }
    assert!(read > 1000, "only {read} records were read");
}

#[test]
fn every_nonzero_byte_where_zero_is_due_is_seen() {
    for (operation, zeros) in [
        (Operation::Idle, vec![1, 2, 3, 4, 5, 6, 7, 8, 9, 10, 11]),
        (READ, vec![1, 2, 3, 8, 9, 10, 11]),
        (WRITE, vec![1, 2, 3]),
    ] {
        for at in zeros {
            for bit in 0..8 {
                let mut record = write_operation(operation);
                record[at] = 1 << bit;
                assert_eq!(read_operation(&record), None, "{operation:?}, byte {at}");
            }
        }
    }
}

#[test]
fn every_unknown_kind_is_seen() {
    for kind in 3..=255 {
        let mut record = write_operation(Operation::Idle);
        record[0] = kind;
        assert_eq!(read_operation(&record), None, "kind {kind}");
    }
}

#[test]
fn every_wrong_length_is_seen() {
    for operation in [Operation::Idle, READ, WRITE] {
        let records = write_operation(operation).repeat(2);
        for length in (0..records.len()).filter(|&length| length != OPERATION_LENGTH) {
            assert_eq!(read_operation(&records[..length]), None, "length {length}");
        }
    }
}

#[test]
fn a_bad_record_ends_the_listing() {
    let setup = write_setup(&setup("mode 0 a 4 s 2 m 1 k 1 delta 0 c 0 u 1 v 0"));
    let mut bad = write_operation(Operation::Idle);
    bad[3] = 1;
    let idle = write_operation(Operation::Idle);
    let operations = [&idle[..], &bad, &idle].concat();
    assert_eq!(listing(Some(&setup), &operations), "0 0 -\n1 9 -\n");
    for length in 1..OPERATION_LENGTH {
        let operations = [&idle[..], &idle[..length]].concat();
        assert_eq!(listing(Some(&setup), &operations), "0 0 -\n1 9 -\n");
    }
}

#[test]
fn a_bad_record_is_seen_after_a_stop() {
    let setup = write_setup(&setup("mode 1 a 2 s 1 m 2 k 1 delta 2 c 2 u 1 v 0"));
    let mut operations = Vec::new();
    for operation in [
        Operation::Write(Address(0), 10),
        Operation::Write(Address(1), 20),
        Operation::Idle,
        Operation::Idle,
        Operation::Read(Address(4)),
    ] {
        operations.extend(write_operation(operation));
    }
    operations.extend([3; OPERATION_LENGTH]);
    let due = "0 0 -\n1 0 -\n2 0 -\n3 6 -\n4 7 -\n5 9 -\n";
    assert_eq!(listing(Some(&setup), &operations), due);
}

#[test]
fn no_bytes_make_the_listing_fail() {
    let mut random = Random::new(4);
    for _ in 0..20_000 {
        let setup: [u8; SETUP_LENGTH] = any_bytes(&mut random);
        let operations: [u8; 5 * OPERATION_LENGTH + 7] = any_bytes(&mut random);
        let length = random.below(operations.len());
        let listing = listing(Some(&setup), &operations[..length]);
        assert!(listing.ends_with('\n') || length == 0);
    }
}
