//! Setups: good ones within `cyclerun`'s room, and ones with which it ends at once.

use crate::listing::{ROOM_A, ROOM_C, ROOM_ENTRIES};
use crate::random::Random;
use crate::records::{write_setup, SETUP_LENGTH};
use crate::setup::Setup;

/// How large the numbers of a setup may get; `slack` is what Δ has above K·m and C above Δ.
struct Sizes {
    a: usize,
    s: usize,
    m: usize,
    k: usize,
    slack: usize,
}

const TINY: Sizes = Sizes {
    a: 7,
    s: 2,
    m: 6,
    k: 3,
    slack: 8,
};

const MIDDLE: Sizes = Sizes {
    a: 8,
    s: 4,
    m: 12,
    k: 6,
    slack: 30,
};

const LARGE: Sizes = Sizes {
    a: ROOM_A as usize,
    s: 6,
    m: 64,
    k: 128,
    slack: ROOM_C,
};

/// A setup in range and within the room of `cyclerun`.
pub fn good(random: &mut Random) -> Setup {
    match random.below(20) {
        0..=11 => within(&TINY, random),
        12..=16 => within(&MIDDLE, random),
        17..=18 => within(&LARGE, random),
        _ => at_the_ends(random),
    }
}

fn within(sizes: &Sizes, random: &mut Random) -> Setup {
    let a = random.between(1, sizes.a);
    let s = random.between(0, sizes.s.min(a));
    let m = random.between(1, sizes.m);
    let k = random.between(1, sizes.k.min(largest_k(s, m)));
    let delta = ROOM_C.min(k * m + slack(sizes, random));
    let c = ROOM_C.min(delta + slack(sizes, random));
    written([a, s, m, k, delta, c], random)
}

fn slack(sizes: &Sizes, random: &mut Random) -> usize {
    if random.chance(35) {
        0
    } else {
        random.between(1, sizes.slack)
    }
}

/// Every number at one end of its range, as far as the room goes.
fn at_the_ends(random: &mut Random) -> Setup {
    let a = random.pick(&[1, ROOM_A as usize]);
    let s = random.pick(&[0, a.min(6)]);
    let m = random.pick(&[1, 64]);
    let k = random.pick(&[1, largest_k(s, m)]);
    let delta = random.pick(&[k * m, ROOM_C]);
    let c = random.pick(&[delta, ROOM_C]);
    written([a, s, m, k, delta, c], random)
}

/// The largest K for which the room has enough entries and rows.
fn largest_k(s: usize, m: usize) -> usize {
    128.min(ROOM_ENTRIES >> s).min(ROOM_C / m)
}

/// The setup of these numbers, in either mode and with some address map. A default is at times written as 0.
fn written([a, s, m, k, delta, c]: [usize; 6], random: &mut Random) -> Setup {
    let n = 1 << a;
    let defaults = random.chance(50);
    let or_zero = |number, default| match number {
        _ if defaults && number == default => 0,
        number => number as u16,
    };
    let (any_odd, any) = (2 * random.below(n / 2) + 1, random.below(n));
    Setup {
        mode: u8::from(random.chance(65)),
        a: a as u8,
        s: s as u8,
        m: m as u8,
        k: k as u16,
        delta: or_zero(delta, k * m),
        c: or_zero(c, delta),
        u: random.pick(&[1, n - 1, any_odd]) as u32,
        v: random.pick(&[0, n - 1, any]) as u32,
    }
}

/// A small setup in range, in which one number can be changed alone.
const SMALL: Setup = Setup {
    mode: 0,
    a: 8,
    s: 2,
    m: 3,
    k: 2,
    delta: 7,
    c: 9,
    u: 5,
    v: 3,
};

/// Each is in range, and one step or more beyond the room of `cyclerun`, some by their defaults alone.
#[rustfmt::skip]
pub const TOO_LARGE: [Setup; 11] = [
    Setup { a: 13, ..SMALL },
    Setup { a: 20, ..SMALL },
    Setup { c: 1025, ..SMALL },
    Setup { c: 4096, ..SMALL },
    Setup { delta: 1025, c: 0, ..SMALL },
    Setup { k: 41, m: 25, delta: 0, c: 0, ..SMALL },
    Setup { k: 64, m: 64, delta: 0, c: 0, ..SMALL },
    Setup { s: 6, k: 17, m: 1, delta: 17, c: 17, ..SMALL },
    Setup { s: 5, k: 33, m: 1, delta: 0, c: 0, ..SMALL },
    Setup { s: 4, k: 65, m: 1, delta: 0, c: 0, ..SMALL },
    Setup { a: 20, s: 6, m: 32, k: 128, delta: 4096, c: 4096, u: (1 << 20) - 1, v: (1 << 20) - 1, mode: 1 },
];

/// Each breaks one range, most of them by one; some are also too large, and are refused all the same.
#[rustfmt::skip]
pub const REFUSED: [Setup; 31] = [
    Setup { mode: 2, ..SMALL },
    Setup { mode: 255, ..SMALL },
    Setup { a: 0, s: 0, u: 0, v: 0, ..SMALL },
    Setup { a: 0, s: 0, u: 1, v: 0, ..SMALL },
    Setup { a: 21, ..SMALL },
    Setup { a: 255, ..SMALL },
    Setup { s: 7, ..SMALL },
    Setup { a: 3, s: 4, ..SMALL },
    Setup { a: 1, s: 2, u: 1, v: 0, ..SMALL },
    Setup { m: 0, ..SMALL },
    Setup { m: 0, delta: 0, ..SMALL },
    Setup { m: 65, k: 1, delta: 0, c: 0, ..SMALL },
    Setup { k: 0, ..SMALL },
    Setup { k: 0, delta: 0, c: 0, ..SMALL },
    Setup { k: 129, m: 1, delta: 0, c: 0, ..SMALL },
    Setup { k: 65535, m: 255, delta: 0, c: 0, ..SMALL },
    Setup { k: 32768, m: 2, delta: 0, c: 0, ..SMALL },
    Setup { delta: 5, ..SMALL },
    Setup { delta: 4097, c: 4097, ..SMALL },
    Setup { delta: 4097, c: 0, ..SMALL },
    Setup { k: 128, m: 33, delta: 0, c: 0, ..SMALL },
    Setup { k: 128, m: 64, delta: 1, c: 1, ..SMALL },
    Setup { c: 6, ..SMALL },
    Setup { delta: 0, c: 5, ..SMALL },
    Setup { c: 4097, ..SMALL },
    Setup { c: 65535, ..SMALL },
    Setup { u: 2, ..SMALL },
    Setup { u: 0, ..SMALL },
    Setup { u: 257, ..SMALL },
    Setup { v: 256, ..SMALL },
    Setup { a: 13, u: 4, v: u32::MAX, ..SMALL },
];

/// Setup files with which `cyclerun` ends at once; the numbers go through all of them in turn.
pub fn ending(number: u64, random: &mut Random) -> Option<Vec<u8>> {
    let mut endings = not_a_record(&write_setup(&in_either_mode(SMALL, random)));
    for setup in REFUSED.into_iter().chain(TOO_LARGE) {
        endings.push(Some(write_setup(&in_either_mode(setup, random))));
    }
    let at = number % endings.len() as u64;
    endings.swap_remove(at as usize)
}

/// A file that is missing, of a wrong length or with a wrong zero byte.
fn not_a_record(good: &[u8]) -> Vec<Option<Vec<u8>>> {
    let with_byte = |at: usize| {
        let mut record = good.to_vec();
        record[at] = 1;
        record
    };
    vec![
        None,
        Some(Vec::new()),
        Some(good[..SETUP_LENGTH - 1].to_vec()),
        Some([good, &[0]].concat()),
        Some(good.repeat(2)),
        Some(with_byte(10)),
        Some(with_byte(11)),
    ]
}

/// The mode is left alone where it is the number out of range.
fn in_either_mode(setup: Setup, random: &mut Random) -> Setup {
    let mode = match setup.mode {
        0 | 1 => random.below(2) as u8,
        other => other,
    };
    Setup { mode, ..setup }
}
