//! From address to bank, in every small configuration.

use second::map::{Address, Cell};
use second::setup::{Configuration, Mode};
use std::collections::BTreeSet;

/// a from 1 to 5, every s, every u, and v at both ends and between.
fn small() -> Vec<Configuration> {
    let mut small = Vec::new();
    for a in 1..=5 {
        let n = 1 << a;
        for s in 0..=a {
            for u in (1..n).step_by(2) {
                for v in [0, 1, n / 2, n - 1] {
                    small.push(with_map(a, s, u, v));
                }
            }
        }
    }
    small
}

fn with_map(a: u32, s: u32, u: u32, v: u32) -> Configuration {
    Configuration {
        mode: Mode::Plain,
        a,
        s,
        m: 1,
        k: 1,
        delta: 1,
        c: 1,
        u,
        v,
    }
}

fn addresses(configuration: &Configuration) -> impl Iterator<Item = Address> {
    (0..configuration.words()).map(Address)
}

#[test]
fn every_bank_and_row_is_that_of_one_address() {
    for configuration in small() {
        let (banks, rows) = (
            1 << configuration.s,
            1 << (configuration.a - configuration.s),
        );
        let places = addresses(&configuration)
            .map(|address| configuration.bank_and_row(configuration.cell(address)));
        let places: BTreeSet<(usize, u32)> = places.collect();
        let due = (0..banks).flat_map(|bank| (0..rows).map(move |row| (bank, row)));
        assert!(places.into_iter().eq(due), "{configuration:?}");
    }
}

#[test]
fn bank_and_row_are_the_bits_of_the_cell() {
    for configuration in small() {
        for number in 0..configuration.words() {
            let (bank, row) = configuration.bank_and_row(Cell(number));
            let width = (configuration.a - configuration.s) as usize;
            let bits = format!("{number:020b}");
            let (top, rest) = bits.split_at(bits.len() - width);
            let value = |bits: &str| u32::from_str_radix(&format!("0{bits}"), 2).unwrap();
            let due = (value(top) as usize, value(rest));
            assert_eq!((bank, row), due, "{configuration:?}, cell {number}");
        }
    }
}

#[test]
fn one_bank_has_all_and_n_banks_have_one_row_each() {
    for configuration in small() {
        for number in 0..configuration.words() {
            let place = configuration.bank_and_row(Cell(number));
            if configuration.s == 0 {
                assert_eq!(place, (0, number), "{configuration:?}");
            }
            if configuration.s == configuration.a {
                assert_eq!(place, (number as usize, 0), "{configuration:?}");
            }
        }
    }
}

/// So a walk in these steps meets the banks in turn, each of them, since u is odd.
#[test]
fn a_step_of_n_over_b_addresses_is_a_step_of_u_banks() {
    for configuration in small() {
        let (words, banks) = (configuration.words(), configuration.banks());
        let step = words >> configuration.s;
        for address in addresses(&configuration) {
            let next = Address((address.0 + step) % words);
            let due = (configuration.bank_of(address) + configuration.u as usize) % banks;
            assert_eq!(configuration.bank_of(next), due, "{configuration:?}");
            let walk = (0..banks as u32).map(|it| Address((address.0 + it * step) % words));
            let met: BTreeSet<usize> = walk.map(|it| configuration.bank_of(it)).collect();
            assert_eq!(met.len(), banks, "{configuration:?}");
        }
    }
}

/// What meets one bank longest: N/B accesses in a row.
#[test]
fn the_cells_of_a_bank_are_consecutive() {
    for configuration in small() {
        let rows = configuration.words() >> configuration.s;
        for first in (0..configuration.words()).step_by(rows as usize) {
            let banks = (first..first + rows).map(|cell| configuration.bank(Cell(cell)));
            let banks: BTreeSet<usize> = banks.collect();
            let due = BTreeSet::from([(first / rows) as usize]);
            assert_eq!(banks, due, "{configuration:?}");
        }
    }
}
