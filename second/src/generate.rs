//! Generated runs: one seed, one run, always the same.

pub mod setups;
pub mod traffic;

use crate::history::Operation;
use crate::map::Address;
use crate::random::Random;
use crate::records::{write_operation, write_setup, OPERATION_LENGTH};

/// What `cyclerun` is given: the bytes of the file `setup`, unless it is missing, and those of standard input.
#[derive(Clone, Debug, PartialEq, Eq)]
pub struct Run {
    pub setup: Option<Vec<u8>>,
    pub operations: Vec<u8>,
}

/// One seed in so many has a setup with which the program ends at once.
const ENDING_EVERY: u64 = 8;

const PERCENT_DAMAGED: usize = 20;

pub fn run(seed: u64) -> Run {
    let mut random = Random::new(seed);
    if seed % ENDING_EVERY == 0 {
        unread(
            setups::ending(seed / ENDING_EVERY, &mut random),
            &mut random,
        )
    } else {
        read_through(&mut random)
    }
}

/// A run whose operations must leave no line.
fn unread(setup: Option<Vec<u8>>, random: &mut Random) -> Run {
    let operations = (0..random.below(4)).flat_map(|_| write_operation(Operation::Idle));
    Run {
        setup,
        operations: operations.collect(),
    }
}

fn read_through(random: &mut Random) -> Run {
    let setup = setups::good(random);
    let configuration = setup.checked().expect("a good setup is in range");
    let operations = traffic::operations(&configuration, random);
    let mut records: Vec<u8> = operations.into_iter().flat_map(write_operation).collect();
    if random.chance(PERCENT_DAMAGED) {
        damage(&mut records, random);
    }
    Run {
        setup: Some(write_setup(&setup)),
        operations: records,
    }
}

/// Puts a bad record somewhere among the good ones, or a short one at the end.
fn damage(records: &mut Vec<u8>, random: &mut Random) {
    if random.chance(20) {
        let whole = write_operation(Operation::Write(Address(1), 1));
        records.extend(&whole[..random.between(1, OPERATION_LENGTH - 1)]);
    } else {
        let count = records.len() / OPERATION_LENGTH;
        let at = random.between(count / 2, count) * OPERATION_LENGTH;
        records.splice(at..at, bad_record(random));
    }
}

/// A record of the right length that is no operation.
fn bad_record(random: &mut Random) -> Vec<u8> {
    let idle = write_operation(Operation::Idle);
    let read = write_operation(Operation::Read(Address(random.below(3) as u32)));
    let write = write_operation(Operation::Write(Address(1), 7));
    let unknown_kind = random.pick(&[3, 4, 128, 255]);
    let nonzero = 1 << random.below(8);
    let faults = [
        (&idle, 0, unknown_kind),
        (&read, 0, unknown_kind),
        (&idle, random.between(1, 11), nonzero),
        (&read, random.between(1, 3), nonzero),
        (&read, random.between(8, 11), nonzero),
        (&write, random.between(1, 3), nonzero),
    ];
    let (good, at, byte) = random.pick(&faults);
    let mut record = good.clone();
    record[at] = byte;
    record
}
