//! Sequences of operations that lead the port into its corners.

use crate::history::{Operation, Word};
use crate::map::Address;
use crate::random::Random;
use crate::setup::Configuration;

const MOST_OPERATIONS: usize = 4000;

#[derive(Clone, Copy)]
enum Pattern {
    /// A few addresses, again and again.
    Hot,
    /// Steps of B or N/B addresses, or from each cell to the next, which meets one bank longest.
    Stride,
    /// Any addresses of one bank.
    OneBank,
    Uniform,
    /// C cycles and more without an idle one: reads, writes or both.
    Burst,
    /// Idle cycles, at times enough to empty everything.
    Rest,
    /// An address touched again after about Δ or C cycles.
    Echo,
}

/// The busy patterns; those that fill a buffer or come back when a row retires stand here twice.
const BUSY: [Pattern; 10] = [
    Pattern::Hot,
    Pattern::Stride,
    Pattern::Stride,
    Pattern::OneBank,
    Pattern::OneBank,
    Pattern::Uniform,
    Pattern::Burst,
    Pattern::Burst,
    Pattern::Echo,
    Pattern::Echo,
];

/// The patterns of one sequence, some of which rest at times.
fn patterns(random: &mut Random) -> Vec<Pattern> {
    let busy = (0..random.between(1, 3)).map(|_| random.pick(&BUSY));
    let mut patterns: Vec<Pattern> = busy.collect();
    if random.chance(30) {
        patterns.push(Pattern::Rest);
    }
    patterns
}

/// A sequence of good and bad addresses for one configuration.
pub fn operations(configuration: &Configuration, random: &mut Random) -> Vec<Operation> {
    let length = length(configuration, random);
    let patterns = patterns(random);
    let mut traffic = Traffic::new(configuration, random);
    while traffic.operations.len() < length {
        let pattern = traffic.random.pick(&patterns);
        traffic.add(pattern);
    }
    traffic.operations.truncate(length);
    traffic.operations
}

/// Most sequences outlive their rows three times over.
fn length(configuration: &Configuration, random: &mut Random) -> usize {
    let lives = 3 * configuration.c;
    let length = match random.below(20) {
        0 => random.below(12),
        1 => random.below(2 * configuration.c),
        2 => 5 * lives + random.below(500),
        _ => lives + random.below(lives + 250),
    };
    length.min(MOST_OPERATIONS)
}

struct Traffic<'a> {
    configuration: &'a Configuration,
    random: &'a mut Random,
    hot: Vec<Address>,
    percent_idle: usize,
    percent_write: usize,
    percent_bad: usize,
    operations: Vec<Operation>,
}

impl Traffic<'_> {
    fn new<'a>(configuration: &'a Configuration, random: &'a mut Random) -> Traffic<'a> {
        let mut traffic = Traffic {
            configuration,
            hot: Vec::new(),
            percent_idle: random.pick(&[0, 0, 10, 40, 75]),
            percent_write: random.pick(&[5, 20, 50, 90]),
            percent_bad: random.pick(&[0, 0, 0, 0, 3, 15]),
            random,
            operations: Vec::new(),
        };
        for _ in 0..traffic.random.between(1, 4) {
            let address = traffic.any_address();
            traffic.hot.push(address);
        }
        traffic
    }

    fn add(&mut self, pattern: Pattern) {
        match pattern {
            Pattern::Hot => self.hot(),
            Pattern::Stride => self.stride(),
            Pattern::OneBank => self.one_bank(),
            Pattern::Uniform => self.uniform(),
            Pattern::Burst => self.burst(),
            Pattern::Rest => self.rest(),
            Pattern::Echo => self.echo(),
        }
    }

    fn hot(&mut self) {
        for _ in 0..self.span() {
            let address = self.hot_address();
            self.touch(address);
        }
    }

    fn stride(&mut self) {
        let step = self.random.pick(&[
            self.configuration.banks() as u32,
            self.configuration.words_in_bank(),
            self.cell_step(),
        ]);
        let mut address = self.any_address();
        for _ in 0..self.span() {
            self.touch(address);
            address = Address((address.0 + step) % self.configuration.words());
        }
    }

    /// The step from the address of each cell to that of the next: the inverse of u.
    fn cell_step(&self) -> u32 {
        let Configuration { u, .. } = *self.configuration;
        let words = self.configuration.words();
        let inverse = (1..words).find(|step| step.wrapping_mul(u) % words == 1);
        inverse.expect("u is odd")
    }

    fn one_bank(&mut self) {
        let bank = self.random.below(self.configuration.banks());
        for _ in 0..self.span() {
            let address = self.address_in(bank);
            self.touch(address);
        }
    }

    fn uniform(&mut self) {
        for _ in 0..self.span() {
            let address = self.any_address();
            self.touch(address);
        }
    }

    fn burst(&mut self) {
        let percent_write = self.random.pick(&[0, 50, 100]);
        let bank = self.random.below(self.configuration.banks());
        let keeps_to_bank = self.random.chance(50);
        let length = self.configuration.c + self.random.below(self.configuration.c + 3);
        for _ in 0..length {
            let address = if keeps_to_bank {
                self.address_in(bank)
            } else {
                self.any_address()
            };
            let writes = self.random.chance(percent_write);
            self.offer(writes, address);
        }
    }

    fn rest(&mut self) {
        let enough = self.configuration.c + self.configuration.k * self.configuration.m;
        let cycles = self.random.between(1, enough);
        self.idle(cycles);
    }

    /// Touches an address and then reads or writes it again, with nothing or with other addresses between.
    fn echo(&mut self) {
        let address = self.hot_address();
        let quiet = self.random.chance(50);
        self.touch_now(address);
        for _ in 0..self.random.between(1, 3) {
            for _ in 1..self.echo_distance() {
                if quiet {
                    self.idle(1);
                } else {
                    let other = self.any_address();
                    self.touch(other);
                }
            }
            self.touch_now(address);
        }
    }

    /// In how many cycles the echo comes: about Δ or C, just before, at and just after.
    fn echo_distance(&mut self) -> usize {
        let near = self
            .random
            .pick(&[1, self.configuration.delta, self.configuration.c]);
        (near + self.random.below(4)).saturating_sub(1).max(1)
    }

    fn span(&mut self) -> usize {
        self.random.between(1, 2 * self.configuration.c.min(100))
    }

    /// An operation on the address, or idle.
    fn touch(&mut self, address: Address) {
        if self.random.chance(self.percent_idle) {
            self.idle(1);
        } else {
            self.touch_now(address);
        }
    }

    fn touch_now(&mut self, address: Address) {
        let writes = self.random.chance(self.percent_write);
        self.offer(writes, address);
    }

    /// A read or a write, at times behind one of a bad address.
    fn offer(&mut self, writes: bool, address: Address) {
        if self.random.chance(self.percent_bad) {
            let address = self.bad_address();
            self.push(writes, address);
        }
        self.push(writes, address);
    }

    fn push(&mut self, writes: bool, address: Address) {
        let operation = if writes {
            Operation::Write(address, self.word())
        } else {
            Operation::Read(address)
        };
        self.operations.push(operation);
    }

    fn idle(&mut self, cycles: usize) {
        let length = self.operations.len() + cycles;
        self.operations.resize(length, Operation::Idle);
    }

    /// Mostly a word that no earlier write of the run has.
    fn word(&mut self) -> Word {
        let fresh = self.operations.len() as Word + 1;
        let any = self.random.number() as Word;
        let ends = self.random.pick(&[0, 1, Word::MAX]);
        self.random.pick(&[fresh, fresh, fresh, fresh, any, ends])
    }

    fn any_address(&mut self) -> Address {
        Address(self.random.below(self.configuration.words() as usize) as u32)
    }

    fn hot_address(&mut self) -> Address {
        self.hot[self.random.below(self.hot.len())]
    }

    /// An address of a bank: the first from anywhere on.
    fn address_in(&mut self, bank: usize) -> Address {
        let words = self.configuration.words();
        let start = self.any_address();
        (0..words)
            .map(|step| Address((start.0 + step) % words))
            .find(|&address| self.configuration.bank_of(address) == bank)
            .unwrap_or(start)
    }

    /// An address at or above N; some name a good one in their low bits.
    fn bad_address(&mut self) -> Address {
        let n = self.configuration.words();
        let Address(good) = self.hot_address();
        Address(
            self.random
                .pick(&[n, n + 1, n + good, 1 << 31 | good, u32::MAX]),
        )
    }
}
