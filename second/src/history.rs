//! The operations of the passed cycles, and what the ideal SRAM says of them.

use crate::map::Address;
use std::collections::HashMap;

pub type Word = u32;

/// Memory starts as zeros.
pub const STARTING_WORD: Word = 0;

#[derive(Clone, Copy, Debug, PartialEq, Eq)]
pub enum Operation {
    Idle,
    Read(Address),
    Write(Address, Word),
}

impl Operation {
    pub fn address(self) -> Option<Address> {
        match self {
            Operation::Idle => None,
            Operation::Read(address) | Operation::Write(address, _) => Some(address),
        }
    }
}

/// The operation of each passed cycle, by cycle number; a dropped one stands as idle.
#[derive(Default)]
pub struct History {
    operations: Vec<Operation>,
    newest: HashMap<Address, usize>,
    // In rising cycle, so that the newest before a cycle is found without a walk over the run.
    writes: HashMap<Address, Vec<(usize, Word)>>,
}

impl History {
    /// The number of passed cycles, which is the number of the present one.
    pub fn now(&self) -> usize {
        self.operations.len()
    }

    /// The cycle that lies so many cycles back and its operation, if the run is that old.
    pub fn ago(&self, cycles: usize) -> Option<(usize, Operation)> {
        let cycle = self.now().checked_sub(cycles)?;
        Some((cycle, *self.operations.get(cycle)?))
    }

    /// The operations of the last so many cycles, or of all where the run is younger.
    pub fn last(&self, cycles: usize) -> &[Operation] {
        &self.operations[self.now().saturating_sub(cycles)..]
    }

    /// The cycle of the newest read or write of an address.
    pub fn newest(&self, address: Address) -> Option<usize> {
        self.newest.get(&address).copied()
    }

    /// The cycle of the newest write to an address.
    pub fn newest_write(&self, address: Address) -> Option<usize> {
        Some(self.writes.get(&address)?.last()?.0)
    }

    /// The ideal SRAM's word at an address after the operations before a cycle.
    pub fn sram(&self, address: Address, before: usize) -> Word {
        let writes = self.writes.get(&address).map_or(&[][..], Vec::as_slice);
        let older = writes.partition_point(|&(cycle, _)| cycle < before);
        writes[..older]
            .last()
            .map_or(STARTING_WORD, |&(_, word)| word)
    }

    /// The present cycle passes with this operation.
    pub fn pass(&mut self, operation: Operation) {
        let cycle = self.now();
        self.operations.push(operation);
        if let Some(address) = operation.address() {
            self.newest.insert(address, cycle);
        }
        if let Operation::Write(address, word) = operation {
            self.writes.entry(address).or_default().push((cycle, word));
        }
    }
}
