//! The port, told from its history: the operations taken, and at each bank the entries placed and how many were served.

use crate::answer::Answer;
use crate::history::{History, Operation, Word, STARTING_WORD};
use crate::map::{Address, Cell};
use crate::setup::{Configuration, Mode};

#[derive(Clone, Copy, Debug, PartialEq, Eq)]
pub struct Reply {
    pub answer: Answer,
    pub delivery: Option<Word>,
}

impl Reply {
    fn refused(answer: Answer) -> Reply {
        Reply {
            answer,
            delivery: None,
        }
    }
}

#[derive(Clone, Copy, Debug, PartialEq, Eq)]
enum Entry {
    Read,
    Write(Cell, Word),
}

/// The entries placed at one bank since the fresh start, oldest first, and how many of them were served.
#[derive(Clone, Default)]
struct Bank {
    placed: Vec<Entry>,
    served: usize,
}

impl Bank {
    fn waiting(&self) -> usize {
        self.placed.len() - self.served
    }
}

pub struct Port {
    configuration: Configuration,
    history: History,
    banks: Vec<Bank>,
    stopped: bool,
}

impl Port {
    pub fn fresh_start(configuration: Configuration) -> Port {
        Port {
            configuration,
            history: History::default(),
            banks: vec![Bank::default(); configuration.banks()],
            stopped: false,
        }
    }

    /// One call. It passes a cycle where the answer is 0 or 5.
    pub fn call(&mut self, operation: Operation) -> Reply {
        if self.stopped {
            return Reply::refused(Answer::Stopped);
        }
        if self.is_beyond_memory(operation) {
            return Reply::refused(Answer::BadAddress);
        }
        self.serve();
        let delivery = self.delivery();
        let answer = if self.retire() {
            self.arrive(operation)
        } else {
            Answer::Stops
        };
        self.stopped = answer == Answer::Stops;
        Reply { answer, delivery }
    }

    /// How many entries wait at a bank.
    pub fn waiting(&self, bank: usize) -> usize {
        self.banks[bank].waiting()
    }

    /// How many entries were placed at a bank.
    pub fn placed(&self, bank: usize) -> usize {
        self.banks[bank].placed.len()
    }

    /// How many of the entries placed at a bank were served.
    pub fn served(&self, bank: usize) -> usize {
        self.banks[bank].served
    }

    /// Of each entry that waits at a bank, oldest first, whether it is a write.
    pub fn waiting_writes(&self, bank: usize) -> impl Iterator<Item = bool> + '_ {
        let bank = &self.banks[bank];
        let waiting = bank.placed[bank.served..].iter();
        waiting.map(|entry| matches!(entry, Entry::Write(..)))
    }

    /// The number of passed cycles.
    pub fn now(&self) -> usize {
        self.history.now()
    }

    /// The operations whose rows are live, oldest first; a row that is empty stands as idle.
    pub fn live(&self) -> &[Operation] {
        self.history.last(self.configuration.c)
    }

    /// What the memory holds at a cell: the word of the newest write entry to it that was served.
    pub fn memory_word(&self, cell: Cell) -> Word {
        let bank = &self.banks[self.configuration.bank(cell)];
        let stored = bank.placed[..bank.served].iter().rev();
        let newest = stored.copied().find_map(|entry| match entry {
            Entry::Write(at, word) if at == cell => Some(word),
            _ => None,
        });
        newest.unwrap_or(STARTING_WORD)
    }

    fn is_beyond_memory(&self, operation: Operation) -> bool {
        let address = operation.address();
        address.map_or(false, |Address(address)| {
            address >= self.configuration.words()
        })
    }

    /// Each bank b with b mod m = t mod m serves one entry, if any waits.
    fn serve(&mut self) {
        let m = self.configuration.m;
        let turn = self.history.now() % m;
        for bank in self.banks.iter_mut().skip(turn).step_by(m) {
            if bank.waiting() > 0 {
                bank.served += 1;
            }
        }
    }

    /// A read taken Δ cycles ago leaves with the word that the ideal SRAM held for it.
    fn delivery(&self) -> Option<Word> {
        match self.history.ago(self.configuration.delta)? {
            (cycle, Operation::Read(address)) => Some(self.history.sram(address, cycle)),
            _ => None,
        }
    }

    /// False where the retiring write needs a place and its buffer holds K.
    fn retire(&mut self) -> bool {
        match self.retiring_write() {
            Some((address, word)) => self.place(address, self.write_entry(address, word)),
            None => true,
        }
    }

    /// The write of C cycles ago, if none of the cycles since wrote its address.
    fn retiring_write(&self) -> Option<(Address, Word)> {
        if self.configuration.mode == Mode::Plain {
            return None;
        }
        let (cycle, operation) = self.history.ago(self.configuration.c)?;
        match operation {
            Operation::Write(address, word)
                if self.history.newest_write(address) == Some(cycle) =>
            {
                Some((address, word))
            }
            _ => None,
        }
    }

    fn arrive(&mut self, operation: Operation) -> Answer {
        let taken = match self.needed_place(operation) {
            Some((address, entry)) => self.place(address, entry),
            None => true,
        };
        if taken {
            self.history.pass(operation);
            Answer::Done
        } else {
            self.history.pass(Operation::Idle);
            Answer::Dropped
        }
    }

    /// The entry that an arriving operation has to place.
    fn needed_place(&self, operation: Operation) -> Option<(Address, Entry)> {
        match (self.configuration.mode, operation) {
            (_, Operation::Idle) => None,
            (Mode::Plain, Operation::Read(address)) => Some((address, Entry::Read)),
            (Mode::Plain, Operation::Write(address, word)) => {
                Some((address, self.write_entry(address, word)))
            }
            (Mode::Merging, Operation::Read(address)) => {
                (!self.is_live(address)).then_some((address, Entry::Read))
            }
            (Mode::Merging, Operation::Write(..)) => None,
        }
    }

    /// Whether one of the last C − 1 cycles read or wrote the address.
    fn is_live(&self, address: Address) -> bool {
        let newest = self.history.newest(address);
        newest.map_or(false, |cycle| {
            cycle + self.configuration.c > self.history.now()
        })
    }

    fn write_entry(&self, address: Address, word: Word) -> Entry {
        Entry::Write(self.configuration.cell(address), word)
    }

    /// Places an entry in the buffer of the address's bank, unless K wait there.
    fn place(&mut self, address: Address, entry: Entry) -> bool {
        let bank = &mut self.banks[self.configuration.bank_of(address)];
        let has_place = bank.waiting() < self.configuration.k;
        if has_place {
            bank.placed.push(entry);
        }
        has_place
    }
}
