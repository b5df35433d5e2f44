//! The generated runs reach every answer and the corners between.

use crate::said::listing;
use second::generate;
use second::history::Operation;
use second::map::Address;
use second::records::{read_operation, read_setup, OPERATION_LENGTH};
use second::setup::{Configuration, Mode};
use std::collections::BTreeMap;

const RUNS: u64 = 500;

/// What a share of the runs must reach, and that share in percent. The walks come by chance too, or as one another, but
/// then in fewer runs.
const DUE: [(&str, u64); 18] = [
    ("answer 0", 75),
    ("answer 4", 15),
    ("answer 5", 35),
    ("answer 6", 15),
    ("answer 7", 15),
    ("answer 9", 8),
    ("setup 1", 4),
    ("setup 8", 2),
    ("a nonzero word", 45),
    ("a merged read", 25),
    ("a word with a 5", 20),
    ("a word with a 6", 3),
    ("a merging 5", 5),
    ("a merging run past 3 C", 15),
    ("a 9 after a 7", 1),
    ("a walk in steps of B", 8),
    ("a walk in steps of N/B", 6),
    ("a walk over cells", 10),
];

/// How many operations in a row make a walk.
const WALK: usize = 8;

#[test]
fn the_runs_reach_every_answer() {
    let mut reached = BTreeMap::new();
    for seed in 0..RUNS {
        for corner in corners(seed) {
            *reached.entry(corner).or_insert(0) += 1;
        }
    }
    for (corner, runs) in &reached {
        println!("{corner}: {runs} of {RUNS} runs");
    }
    for (corner, percent) in DUE {
        let runs = reached.get(corner).copied().unwrap_or(0);
        assert!(100 * runs >= percent * RUNS, "{corner}: only {runs} runs");
    }
}

/// What one run reaches, each once.
fn corners(seed: u64) -> Vec<&'static str> {
    let run = generate::run(seed);
    let listing = listing(run.setup.as_deref(), &run.operations);
    let lines: Vec<&str> = listing.lines().collect();
    let words: Vec<Vec<&str>> = lines.iter().map(|line| line.split(' ').collect()).collect();
    let has = |wanted: fn(&str, &str) -> bool| {
        words
            .iter()
            .any(|line| line.len() == 3 && wanted(line[1], line[2]))
    };
    let merging = run
        .setup
        .as_ref()
        .map_or(false, |setup| setup.first() == Some(&1));
    let reached = [
        ("setup 1", listing == "setup 1\n"),
        ("setup 8", listing == "setup 8\n"),
        ("answer 0", has(|answer, _| answer == "0")),
        ("answer 4", has(|answer, _| answer == "4")),
        ("answer 5", has(|answer, _| answer == "5")),
        ("answer 6", has(|answer, _| answer == "6")),
        ("answer 7", has(|answer, _| answer == "7")),
        ("answer 9", has(|answer, _| answer == "9")),
        ("a nonzero word", has(|_, word| word != "-" && word != "0")),
        (
            "a word with a 5",
            has(|answer, word| answer == "5" && word != "-"),
        ),
        (
            "a word with a 6",
            has(|answer, word| answer == "6" && word != "-"),
        ),
        ("a merging 5", merging && has(|answer, _| answer == "5")),
        (
            "a 9 after a 7",
            has(|answer, _| answer == "7") && has(|answer, _| answer == "9"),
        ),
        ("a merged read", merges_a_read(&run, &words)),
        (
            "a merging run past 3 C",
            merging && passes_3_c(&run, &words),
        ),
        (
            "a walk in steps of B",
            walks(&run, |it, from, to| {
                goes(it, from.0, to.0, it.banks() as u32)
            }),
        ),
        (
            "a walk in steps of N/B",
            walks(&run, |it, from, to| {
                goes(it, from.0, to.0, it.words_in_bank())
            }),
        ),
        (
            "a walk over cells",
            walks(&run, |it, from, to| {
                goes(it, it.cell(from).0, it.cell(to).0, 1)
            }),
        ),
    ];
    let reached = reached.into_iter().filter(|&(_, is_reached)| is_reached);
    reached.map(|(corner, _)| corner).collect()
}

/// The operations that were taken, by the cycles that passed.
fn taken(run: &generate::Run, words: &[Vec<&str>]) -> Vec<Operation> {
    let records = run.operations.chunks(OPERATION_LENGTH).map(read_operation);
    let answered = words
        .iter()
        .filter(|line| line.len() == 3)
        .map(|line| line[1]);
    let taken = records
        .zip(answered)
        .filter_map(|(operation, answer)| match answer {
            "0" => operation,
            "5" => Some(Operation::Idle),
            _ => None,
        });
    taken.collect()
}

fn merges_a_read(run: &generate::Run, words: &[Vec<&str>]) -> bool {
    let configuration = match configuration(run) {
        Some(configuration) => configuration,
        None => return false,
    };
    let taken = taken(run, words);
    configuration.mode == Mode::Merging
        && taken.iter().enumerate().any(|(cycle, &operation)| {
            let live = &taken[(cycle + 1).saturating_sub(configuration.c)..cycle];
            matches!(operation, Operation::Read(_))
                && live.iter().any(|it| it.address() == operation.address())
        })
}

fn passes_3_c(run: &generate::Run, words: &[Vec<&str>]) -> bool {
    configuration(run).map_or(false, |it| taken(run, words).len() > 3 * it.c)
}

/// Whether operations in a row, as many as make a walk, go on from each address to the next.
fn walks(run: &generate::Run, goes: fn(&Configuration, Address, Address) -> bool) -> bool {
    let configuration = match configuration(run) {
        Some(configuration) => configuration,
        None => return false,
    };
    let records = run.operations.chunks(OPERATION_LENGTH).map(read_operation);
    let addresses: Vec<Option<Address>> = records.map(|it| it?.address()).collect();
    let is_walk = |walk: &[Option<Address>]| {
        walk.windows(2).all(|two| match *two {
            [Some(from), Some(to)] => goes(&configuration, from, to),
            _ => false,
        })
    };
    addresses.windows(WALK).any(is_walk)
}

/// Whether one number is so many steps behind the other on the circle of N, and the steps do not end where they begin.
fn goes(configuration: &Configuration, from: u32, to: u32, step: u32) -> bool {
    let around = |number: u32| number % configuration.words();
    around(to.wrapping_sub(from)) == around(step) && around(step) != 0
}

fn configuration(run: &generate::Run) -> Option<Configuration> {
    read_setup(run.setup.as_deref()?)?.checked()
}

#[test]
fn a_seed_gives_one_run() {
    for seed in 0..50 {
        assert_eq!(generate::run(seed), generate::run(seed));
        assert_ne!(generate::run(seed), generate::run(seed + 1));
    }
}

#[test]
fn runs_are_short_enough_to_start_a_program_for_each() {
    let lengths = (0..RUNS).map(|seed| generate::run(seed).operations.len() / OPERATION_LENGTH);
    let mut lengths: Vec<usize> = lengths.collect();
    lengths.sort();
    println!(
        "median {}, most {}",
        lengths[lengths.len() / 2],
        lengths[lengths.len() - 1]
    );
    assert!(lengths[lengths.len() / 2] < 500);
    assert!(lengths[lengths.len() - 1] <= 4001);
}
