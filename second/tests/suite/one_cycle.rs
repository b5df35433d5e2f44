//! Document 01's section "One cycle" as it is written, with rows and buffers, tells the same as the history.

use crate::said::generated;
use second::answer::Answer;
use second::history::{Operation, Word};
use second::map::{Address, Cell};
use second::port::{Port, Reply};
use second::setup::{Configuration, Mode};
use std::collections::VecDeque;

const RUNS: u64 = 1500;

#[derive(Clone, Copy)]
enum Row {
    Empty,
    Write(Address, Word),
    ReadWithWord(Address, Word),
    /// A read that waits on the row whose entry is in the buffer, which may be itself.
    ReadWaiting(Address, usize),
}

#[derive(Clone, Copy)]
enum Entry {
    Read(Cell, usize),
    Write(Cell, Word),
}

pub struct Machine {
    pub configuration: Configuration,
    pub cycle: usize,
    stopped: bool,
    pub memory: Vec<Word>,
    rows: Vec<Row>,
    buffers: Vec<VecDeque<Entry>>,
}

impl Machine {
    pub fn fresh_start(configuration: Configuration, memory: Vec<Word>) -> Machine {
        Machine {
            configuration,
            cycle: 0,
            stopped: false,
            memory,
            rows: vec![Row::Empty; configuration.c],
            buffers: vec![VecDeque::new(); configuration.banks()],
        }
    }

    pub fn call(&mut self, operation: Operation) -> Reply {
        let address = operation.address();
        if self.stopped {
            return reply(Answer::Stopped, None);
        }
        if address.map_or(false, |Address(it)| it >= self.configuration.words()) {
            return reply(Answer::BadAddress, None);
        }
        self.service();
        let delivery = self.delivery();
        if !self.retirement() {
            self.stopped = true;
            return reply(Answer::Stops, delivery);
        }
        let taken = self.arrival(operation);
        self.cycle += 1;
        reply(if taken { Answer::Done } else { Answer::Dropped }, delivery)
    }

    /// How many entries wait at a bank.
    pub fn question(&self, bank: usize) -> (Answer, usize) {
        match self.buffers.get(bank) {
            Some(buffer) => (Answer::Done, buffer.len()),
            None => (Answer::BadAddress, 0),
        }
    }

    fn service(&mut self) {
        for bank in 0..self.buffers.len() {
            if bank % self.configuration.m == self.cycle % self.configuration.m {
                match self.buffers[bank].pop_front() {
                    Some(Entry::Write(Cell(cell), word)) => self.memory[cell as usize] = word,
                    Some(Entry::Read(Cell(cell), row)) => {
                        self.fill(row, self.memory[cell as usize])
                    }
                    None => {}
                }
            }
        }
    }

    /// Gives a word to a row and to every row waiting on it.
    fn fill(&mut self, row: usize, word: Word) {
        for place in &mut self.rows {
            match *place {
                Row::ReadWaiting(address, on) if on == row => {
                    *place = Row::ReadWithWord(address, word);
                }
                _ => {}
            }
        }
    }

    fn row_of_cycle(&self, cycle: usize) -> usize {
        cycle % self.configuration.c
    }

    fn delivery(&self) -> Option<Word> {
        let filled = self.cycle.checked_sub(self.configuration.delta)?;
        match self.rows[self.row_of_cycle(filled)] {
            Row::ReadWithWord(_, word) => Some(word),
            Row::ReadWaiting(..) => panic!("unready"),
            Row::Write(..) | Row::Empty => None,
        }
    }

    fn retirement(&mut self) -> bool {
        let row = self.row_of_cycle(self.cycle);
        if let (Mode::Merging, Row::Write(address, word)) =
            (self.configuration.mode, self.rows[row])
        {
            let others = (0..self.rows.len()).filter(|&other| other != row);
            let replaced = others
                .map(|other| self.rows[other])
                .any(|it| matches!(it, Row::Write(at, _) if at == address));
            let cell = self.configuration.cell(address);
            if !replaced && !self.place(Entry::Write(cell, word)) {
                return false;
            }
        }
        self.rows[row] = Row::Empty;
        true
    }

    fn arrival(&mut self, operation: Operation) -> bool {
        let row = self.row_of_cycle(self.cycle);
        let (filled, entry) = match (self.configuration.mode, operation) {
            (_, Operation::Idle) => (Row::Empty, None),
            (Mode::Plain, Operation::Write(address, word)) => {
                let cell = self.configuration.cell(address);
                (Row::Write(address, word), Some(Entry::Write(cell, word)))
            }
            (Mode::Merging, Operation::Write(address, word)) => (Row::Write(address, word), None),
            (Mode::Plain, Operation::Read(address)) => self.new_read(address, row),
            (Mode::Merging, Operation::Read(address)) => match self.newest_live(address) {
                Some(Row::Write(_, word) | Row::ReadWithWord(_, word)) => {
                    (Row::ReadWithWord(address, word), None)
                }
                Some(Row::ReadWaiting(_, on)) => (Row::ReadWaiting(address, on), None),
                Some(Row::Empty) | None => self.new_read(address, row),
            },
        };
        let taken = entry.map_or(true, |entry| self.place(entry));
        if taken {
            self.rows[row] = filled;
        }
        taken
    }

    fn new_read(&self, address: Address, row: usize) -> (Row, Option<Entry>) {
        let cell = self.configuration.cell(address);
        (Row::ReadWaiting(address, row), Some(Entry::Read(cell, row)))
    }

    fn newest_live(&self, address: Address) -> Option<Row> {
        let live = (1..self.configuration.c).filter_map(|ago| self.cycle.checked_sub(ago));
        let mut rows = live.map(|cycle| self.rows[self.row_of_cycle(cycle)]);
        rows.find(|&row| match row {
            Row::Empty => false,
            Row::Write(at, _) | Row::ReadWithWord(at, _) | Row::ReadWaiting(at, _) => at == address,
        })
    }

    fn place(&mut self, entry: Entry) -> bool {
        let (Entry::Read(cell, _) | Entry::Write(cell, _)) = entry;
        let buffer = &mut self.buffers[self.configuration.bank(cell)];
        let has_place = buffer.len() < self.configuration.k;
        if has_place {
            buffer.push_back(entry);
        }
        has_place
    }
}

fn reply(answer: Answer, delivery: Option<Word>) -> Reply {
    Reply { answer, delivery }
}

/// Memory of zeros.
pub fn zeros(configuration: &Configuration) -> Vec<Word> {
    vec![0; configuration.words() as usize]
}

#[test]
fn rows_and_buffers_reply_as_the_history_does() {
    for seed in 0..RUNS {
        let (configuration, operations) = generated(seed);
        let mut machine = Machine::fresh_start(configuration, zeros(&configuration));
        let mut port = Port::fresh_start(configuration);
        for (call, &operation) in operations.iter().enumerate() {
            assert_eq!(
                port.call(operation),
                machine.call(operation),
                "seed {seed}, call {call}"
            );
            for bank in 0..configuration.banks() {
                let due = (Answer::Done, port.waiting(bank));
                assert_eq!(machine.question(bank), due, "seed {seed}, call {call}");
            }
        }
    }
}

#[test]
fn the_memory_holds_what_the_history_says() {
    for seed in 0..RUNS {
        let (configuration, operations) = generated(seed);
        let mut machine = Machine::fresh_start(configuration, zeros(&configuration));
        let mut port = Port::fresh_start(configuration);
        for (call, &operation) in operations.iter().enumerate().take(100) {
            port.call(operation);
            machine.call(operation);
            for (cell, &word) in machine.memory.iter().enumerate().take(64) {
                let held = port.memory_word(Cell(cell as u32));
                assert_eq!(held, word, "seed {seed}, call {call}, cell {cell}");
            }
        }
    }
}
