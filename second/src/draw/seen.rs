//! What the picture shows of each call, told from the port's history.

use crate::answer::Answer;
use crate::history::{Operation, Word};
use crate::port::Port;
use crate::records::{read_operation, OPERATION_LENGTH};
use crate::setup::Configuration;

#[derive(Clone, Copy, Debug, PartialEq, Eq)]
pub enum Turn {
    /// Another bank's turn, or no cycle.
    Another,
    /// The bank's turn, and nothing waited.
    Unused,
    /// The bank's turn, and its oldest entry was taken.
    Used,
}

/// A bank after a call.
pub struct Bank {
    pub turn: Turn,
    /// Of each entry that waits, oldest first, whether it is a write.
    pub writes: Vec<bool>,
}

/// One call, and the port after it.
pub struct Call {
    /// Nothing where the record is no operation.
    pub offered: Option<Operation>,
    pub answer: Answer,
    pub word: Option<Word>,
    /// The call in which the read arrived whose word leaves.
    pub arrived: Option<usize>,
    pub banks: Vec<Bank>,
    /// The rows that are not empty, oldest first.
    pub live: Vec<Operation>,
}

impl Call {
    pub fn takes_a_read(&self) -> bool {
        self.answer == Answer::Done && matches!(self.offered, Some(Operation::Read(_)))
    }
}

/// The first calls of a run, up to and with the first bad record.
pub fn calls(configuration: &Configuration, operations: &[u8], most: usize) -> Vec<Call> {
    let mut port = Port::fresh_start(*configuration);
    let mut calls: Vec<Call> = Vec::new();
    // The call of each passed cycle.
    let mut passed = Vec::new();
    for record in operations.chunks(OPERATION_LENGTH).take(most) {
        let call = call(configuration, &mut port, read_operation(record), &passed);
        if port.now() > passed.len() {
            passed.push(calls.len());
        }
        let is_last = call.answer == Answer::BadRecord;
        calls.push(call);
        if is_last {
            break;
        }
    }
    calls
}

fn call(
    configuration: &Configuration,
    port: &mut Port,
    offered: Option<Operation>,
    passed: &[usize],
) -> Call {
    let cycle = port.now();
    let served: Vec<usize> = (0..configuration.banks())
        .map(|bank| port.served(bank))
        .collect();
    let (answer, word) = match offered.map(|operation| port.call(operation)) {
        Some(reply) => (reply.answer, reply.delivery),
        None => (Answer::BadRecord, None),
    };
    let serves = matches!(answer, Answer::Done | Answer::Dropped | Answer::Stops);
    let turn = |bank: usize| match serves && bank % configuration.m == cycle % configuration.m {
        true if port.served(bank) > served[bank] => Turn::Used,
        true => Turn::Unused,
        false => Turn::Another,
    };
    let banks = (0..configuration.banks()).map(|bank| Bank {
        turn: turn(bank),
        writes: port.waiting_writes(bank).collect(),
    });
    let live = port.live().iter().copied();
    Call {
        offered,
        answer,
        word,
        arrived: word.map(|_| passed[cycle - configuration.delta]),
        banks: banks.collect(),
        live: live.filter(|row| *row != Operation::Idle).collect(),
    }
}
