//! The numbers of a configuration: as a setup writes them, and with the defaults in and the ranges tested.

use std::ops::RangeInclusive;

const A: RangeInclusive<u8> = 1..=20;
const S: RangeInclusive<u8> = 0..=6;
const M: RangeInclusive<u8> = 1..=64;
const K: RangeInclusive<u16> = 1..=128;
const LARGEST_DELTA: usize = 4096;
const LARGEST_C: usize = 4096;

/// A setup as written: a `delta` or `c` of 0 stands for its default.
#[derive(Clone, Copy, Debug, PartialEq, Eq)]
pub struct Setup {
    pub mode: u8,
    pub a: u8,
    pub s: u8,
    pub m: u8,
    pub k: u16,
    pub delta: u16,
    pub c: u16,
    pub u: u32,
    pub v: u32,
}

#[derive(Clone, Copy, Debug, PartialEq, Eq)]
pub enum Mode {
    Plain,
    Merging,
}

/// A setup whose numbers are all in range, with the defaults in.
#[derive(Clone, Copy, Debug, PartialEq, Eq)]
pub struct Configuration {
    pub mode: Mode,
    pub a: u32,
    pub s: u32,
    pub m: usize,
    pub k: usize,
    pub delta: usize,
    pub c: usize,
    pub u: u32,
    pub v: u32,
}

impl Setup {
    /// The configuration, or nothing where document 01 answers 1.
    pub fn checked(&self) -> Option<Configuration> {
        let mode = self.mode()?;
        let delta = or_default(self.delta, self.default_delta());
        let c = or_default(self.c, default_c(delta));
        let delays_fit = (self.default_delta()..=LARGEST_DELTA).contains(&delta)
            && (delta..=LARGEST_C).contains(&c);
        (self.sizes_fit() && self.address_map_fits() && delays_fit).then_some(Configuration {
            mode,
            a: self.a.into(),
            s: self.s.into(),
            m: self.m.into(),
            k: self.k.into(),
            delta,
            c,
            u: self.u,
            v: self.v,
        })
    }

    fn mode(&self) -> Option<Mode> {
        match self.mode {
            0 => Some(Mode::Plain),
            1 => Some(Mode::Merging),
            _ => None,
        }
    }

    /// K·m, which is also the least Δ allowed. It is counted wide enough for any two numbers of a record.
    fn default_delta(&self) -> usize {
        usize::from(self.k) * usize::from(self.m)
    }

    fn sizes_fit(&self) -> bool {
        A.contains(&self.a)
            && S.contains(&self.s)
            && self.s <= self.a
            && M.contains(&self.m)
            && K.contains(&self.k)
    }

    fn address_map_fits(&self) -> bool {
        let below_n = |number| A.contains(&self.a) && number < 1 << self.a;
        below_n(self.u) && below_n(self.v) && self.u % 2 == 1
    }
}

/// What a C of 0 stands for.
fn default_c(delta: usize) -> usize {
    delta
}

fn or_default(written: u16, default: usize) -> usize {
    match written {
        0 => default,
        number => number.into(),
    }
}

impl Configuration {
    /// N, the number of words.
    pub fn words(&self) -> u32 {
        1 << self.a
    }

    /// B, the number of banks.
    pub fn banks(&self) -> usize {
        1 << self.s
    }

    /// N/B, the number of words in each bank.
    pub fn words_in_bank(&self) -> u32 {
        self.words() / self.banks() as u32
    }
}
