//! Demands 2 and 3, said again over finished runs, slowly and apart from the port's own bookkeeping.

use crate::said::{generated, replies};
use second::answer::Answer;
use second::history::{Operation, Word};
use second::map::Address;
use second::port::Reply;
use second::random::Random;
use second::setup::{Configuration, Mode};

const RUNS: u64 = 1500;

/// A finished run: what was offered and replied, and the operation of each passed cycle, a dropped one as idle.
struct Finished {
    configuration: Configuration,
    offered: Vec<Operation>,
    replies: Vec<Reply>,
    past: Vec<Operation>,
}

impl Finished {
    fn new(configuration: Configuration, offered: &[Operation]) -> Finished {
        let replies = replies(configuration, offered);
        let calls = offered.iter().zip(&replies);
        let past = calls.filter_map(|(&operation, reply)| match reply.answer {
            Answer::Done => Some(operation),
            Answer::Dropped => Some(Operation::Idle),
            _ => None,
        });
        Finished {
            configuration,
            offered: offered.to_vec(),
            past: past.collect(),
            replies,
        }
    }

    /// The calls that get as far as a cycle, by the number of that cycle.
    fn cycles(&self) -> impl Iterator<Item = (Operation, Reply)> + '_ {
        let calls = self
            .offered
            .iter()
            .copied()
            .zip(self.replies.iter().copied());
        calls.filter(|(_, reply)| !matches!(reply.answer, Answer::BadAddress | Answer::Stopped))
    }

    fn bank(&self, address: Address) -> usize {
        self.configuration.bank_of(address)
    }

    /// What has to be delivered in a cycle.
    fn due(&self, cycle: usize) -> Option<Word> {
        let taken = cycle.checked_sub(self.configuration.delta)?;
        match self.past[taken] {
            Operation::Read(address) => Some(ideal_sram(&self.past[..taken], address)),
            _ => None,
        }
    }

    /// The bank at which the write that retires in a cycle needs a place.
    fn retiring(&self, cycle: usize) -> Option<usize> {
        let retired = cycle.checked_sub(self.configuration.c)?;
        let address = match self.past[retired] {
            Operation::Write(address, _) => address,
            _ => return None,
        };
        let since = &self.past[retired + 1..cycle];
        let replaced = since.iter().any(|&it| is_write_to(it, address));
        let merging = self.configuration.mode == Mode::Merging;
        (merging && !replaced).then(|| self.bank(address))
    }

    /// The bank at which an operation that arrives in a cycle needs a place.
    fn arriving(&self, cycle: usize, operation: Operation) -> Option<usize> {
        let address = operation.address()?;
        let live = &self.past[(cycle + 1).saturating_sub(self.configuration.c)..cycle];
        let found = live.iter().any(|it| it.address() == Some(address));
        let needs_place = match self.configuration.mode {
            Mode::Plain => true,
            Mode::Merging => matches!(operation, Operation::Read(_)) && !found,
        };
        needs_place.then(|| self.bank(address))
    }

    /// The banks at which each passed cycle placed entries.
    fn placed(&self) -> Vec<[Option<usize>; 2]> {
        let cycles = self.past.iter().enumerate();
        let placed = cycles.map(|(cycle, &it)| [self.retiring(cycle), self.arriving(cycle, it)]);
        placed.collect()
    }

    /// How many entries wait at a bank after the service of a cycle, counted anew from the first cycle.
    fn waiting(&self, placed: &[[Option<usize>; 2]], bank: usize, cycle: usize) -> usize {
        let m = self.configuration.m;
        let served =
            |waiting: usize, at: usize| waiting - usize::from(at % m == bank % m && waiting > 0);
        let earlier = placed[..cycle].iter().enumerate();
        let waiting = earlier.fold(0, |waiting, (at, banks)| {
            served(waiting, at) + banks.iter().filter(|&&it| it == Some(bank)).count()
        });
        served(waiting, cycle)
    }
}

/// The word of the newest write to an address.
fn ideal_sram(past: &[Operation], address: Address) -> Word {
    let newest = past.iter().rev().find_map(|&it| match it {
        Operation::Write(at, word) if at == address => Some(word),
        _ => None,
    });
    newest.unwrap_or(0)
}

fn is_write_to(operation: Operation, address: Address) -> bool {
    matches!(operation, Operation::Write(at, _) if at == address)
}

#[test]
fn demand_2_each_read_taken_leaves_after_delta_cycles_with_the_word_of_the_ideal_sram() {
    for seed in 0..RUNS {
        let (configuration, offered) = generated(seed);
        let run = Finished::new(configuration, &offered);
        for (cycle, (_, reply)) in run.cycles().enumerate() {
            assert_eq!(reply.delivery, run.due(cycle), "seed {seed}, cycle {cycle}");
        }
    }
}

#[test]
fn demand_2_it_drops_and_stops_exactly_at_a_full_buffer() {
    for seed in 0..RUNS {
        let (configuration, offered) = generated(seed);
        let run = Finished::new(configuration, &offered);
        let placed = run.placed();
        for (cycle, (operation, reply)) in run.cycles().enumerate() {
            let retiring = run.retiring(cycle);
            let stops = retiring.map_or(false, |bank| {
                run.waiting(&placed, bank, cycle) == configuration.k
            });
            let drops = run.arriving(cycle, operation).map_or(false, |bank| {
                let just_placed = usize::from(retiring == Some(bank));
                run.waiting(&placed, bank, cycle) + just_placed == configuration.k
            });
            let due = match (stops, drops) {
                (true, _) => Answer::Stops,
                (false, true) => Answer::Dropped,
                (false, false) => Answer::Done,
            };
            assert_eq!(reply.answer, due, "seed {seed}, cycle {cycle}");
        }
    }
}

#[test]
fn a_refused_call_delivers_nothing_and_its_reason_stands() {
    for seed in 0..RUNS {
        let (configuration, offered) = generated(seed);
        let mut stopped = false;
        for (operation, reply) in offered.iter().zip(replies(configuration, &offered)) {
            let address = operation.address();
            let beyond = address.map_or(false, |Address(it)| it >= configuration.words());
            let refused = matches!(reply.answer, Answer::BadAddress | Answer::Stopped);
            assert_eq!(reply.answer == Answer::Stopped, stopped, "seed {seed}");
            assert_eq!(
                reply.answer == Answer::BadAddress,
                beyond && !stopped,
                "seed {seed}"
            );
            assert!(!refused || reply.delivery.is_none(), "seed {seed}");
            stopped |= reply.answer == Answer::Stops;
        }
    }
}

/// Two runs over the same operations, the first with a shallower buffer, all else equal.
fn two_depths(seed: u64, mode: Mode) -> Option<(Finished, Finished)> {
    let (configuration, offered) = generated(seed);
    let k = Random::new(seed).between(1, (configuration.k - 1).max(1));
    let shallower = Configuration { k, ..configuration };
    let differ = configuration.mode == mode && k < configuration.k;
    differ.then(|| {
        (
            Finished::new(shallower, &offered),
            Finished::new(configuration, &offered),
        )
    })
}

/// Asserts that the deeper takes what the shallower takes, and gives how many operations the shallower alone dropped.
fn assert_takes_as_much(shallower: &Finished, deeper: &Finished, seed: u64) -> usize {
    let mut lost = 0;
    for (call, (less, more)) in shallower.replies.iter().zip(&deeper.replies).enumerate() {
        let taken = |reply: &Reply| reply.answer == Answer::Done;
        assert!(!taken(less) || taken(more), "seed {seed}, call {call}");
        lost += usize::from(less.answer == Answer::Dropped && taken(more));
    }
    lost
}

/// Asserts that reads taken by the shallower leave both with the same word, unless they follow a lost write.
fn assert_same_words(shallower: &Finished, deeper: &Finished, seed: u64) {
    let mut lost_writes = Vec::new();
    for (cycle, (offered, less)) in shallower.cycles().enumerate() {
        match (offered, less.answer) {
            (Operation::Write(address, _), Answer::Dropped) => lost_writes.push(address),
            (Operation::Read(address), Answer::Done) if !lost_writes.contains(&address) => {
                let leaves = cycle + shallower.configuration.delta;
                if let Some((_, reply)) = shallower.cycles().nth(leaves) {
                    let other = deeper.cycles().nth(leaves).map(|(_, reply)| reply.delivery);
                    assert!(reply.delivery.is_some(), "seed {seed}, cycle {leaves}");
                    assert_eq!(Some(reply.delivery), other, "seed {seed}, cycle {leaves}");
                }
            }
            _ => {}
        }
    }
}

#[test]
fn demand_3_plain_a_deeper_buffer_takes_as_much_and_gives_the_same_words() {
    let mut lost = 0;
    for seed in 0..RUNS {
        if let Some((shallower, deeper)) = two_depths(seed, Mode::Plain) {
            lost += assert_takes_as_much(&shallower, &deeper, seed);
            assert_same_words(&shallower, &deeper, seed);
        }
    }
    assert!(
        lost > 1000,
        "the shallower alone dropped only {lost} operations"
    );
}

#[test]
fn demand_3_merging_both_depths_agree_until_the_shallower_drops_or_stops() {
    let mut parted = 0;
    for seed in 0..RUNS {
        let (shallower, deeper) = match two_depths(seed, Mode::Merging) {
            Some(two) => two,
            None => continue,
        };
        for (call, (less, more)) in shallower.replies.iter().zip(&deeper.replies).enumerate() {
            assert_eq!(less.delivery, more.delivery, "seed {seed}, call {call}");
            if matches!(less.answer, Answer::Dropped | Answer::Stops) {
                parted += 1;
                break;
            }
            assert_eq!(less.answer, more.answer, "seed {seed}, call {call}");
        }
    }
    assert!(parted > 100, "only {parted} pairs of runs parted");
}

/// More than demand 3 asks of merging mode: the shallower's losses do not set the deeper back.
#[test]
fn merging_a_deeper_buffer_takes_as_much_and_gives_the_same_words() {
    let mut lost = 0;
    for seed in 0..RUNS {
        if let Some((shallower, deeper)) = two_depths(seed, Mode::Merging) {
            lost += assert_takes_as_much(&shallower, &deeper, seed);
            assert_same_words(&shallower, &deeper, seed);
        }
    }
    assert!(
        lost > 1000,
        "the shallower alone dropped only {lost} operations"
    );
}
