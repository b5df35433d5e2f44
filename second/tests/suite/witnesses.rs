//! The witnesses of the must-fail edits: document 01's machine tells what they promise, and the page of wrong programs has
//! the same witnesses.

use crate::one_cycle::{zeros, Machine};
use crate::said::{operations, setup};
use second::answer::Answer;
use second::history::{Operation, Word};
use second::map::{Address, Cell};
use second::port::Reply;
use second::setup::{Configuration, Setup};
use std::fs;
use std::path::{Path, PathBuf};

/// What the machine cannot tell of, behind the setup where there is one: a state that no run reaches, a number of the
/// rooms that document 01 does not name, and what is no call of the controller.
const NOT_TOLD: [&str; 19] = [
    "the fresh start answers 1 and leaves stamp 0, promised 9",
    "bank 0 has oldest place 1, idle; call 0 answers 0, promised 3",
    "one entry of kind 2 waits, idle; call 0 answers 0, promised 3",
    "a stopped state of turn 1, idle; call 0 answers 7, promised 3",
    "a state of turn 1; a question of bank 0 tells 1, promised 0",
    "a state of mark 2, read 2; answers 4 with mark 0, promised 3 with mark 2",
    "a state of stamp 9, an operation of kind 3; refused by 9 with stamp 9, promised 0",
    "idle, read 0, idle; after call 2 row 1 has link 1, promised 0",
    "write 0 5, read 0; after call 1 row 1 has link 1, promised 0",
    "read 0; after call 0 the entry has word 1, promised 0",
    "write 0 5; after call 0 the entry has row 1, promised 0",
    "memory of 3 words; the fresh start answers 0, promised 2",
    "the check hands out none, promised the setup of Δ 1 C 1",
    "the record of kind 1 and address 0; read as a write, promised a read",
    "a record of 0 bytes; reading answers 2, promised 9",
    "a record of 0 bytes; reading answers 2, promised 1",
    "a setup of zeros, to be written to a room of 20 bytes; answers 0, promised 1",
    "the record of a read of address 0; handed out as a write of the word 0 to it, promised the read",
    "12 bytes of 3, then an idle record; two lines, promised one",
];

/// Memory is zeros unless the setup ends so.
const NOT_ZEROS: &str = "cell c starts with 71 + c";

fn beside(path: &str) -> PathBuf {
    Path::new(env!("CARGO_MANIFEST_DIR")).join("..").join(path)
}

/// Each edit that has a witness, as `crate/must-fail/edit`, with what is wrong and the witness. Every edit of
/// `crates/model` has one.
fn witnesses() -> Vec<(String, String, String)> {
    let mut witnesses = Vec::new();
    let crates = fs::read_dir(beside("crates")).unwrap();
    let folders = crates.map(|it| it.unwrap().path().join("must-fail"));
    for file in folders.filter_map(|it| fs::read_dir(it).ok()).flatten() {
        let path = file.unwrap().path();
        let text = fs::read_to_string(&path).unwrap();
        let edit = path.strip_prefix(beside("crates")).unwrap();
        let edit = edit.with_extension("").to_str().unwrap().to_string();
        match text.lines().next().unwrap()[2..].split_once(". Witness: ") {
            Some((wrong, witness)) => witnesses.push((edit, wrong.into(), witness.into())),
            None => assert!(!edit.starts_with("model/"), "{edit} has no witness"),
        }
    }
    witnesses.sort();
    witnesses
}

/// Setup, run and claim. A claim against a statement, and not against a machine, follows a colon.
fn parts(witness: &str) -> [&str; 3] {
    let parts = witness.split("; ").flat_map(|part| part.split(": "));
    match parts.collect::<Vec<_>>()[..] {
        [setup, run, claim] => [setup, run, claim],
        [setup, claim] => [setup, "no operation", claim],
        _ => panic!("not a setup, a run and a claim"),
    }
}

fn setup_said(said: &str, k: &str) -> Setup {
    let (mode, numbers) = match said.split(", ").collect::<Vec<_>>()[..] {
        ["P7's setup", mode, numbers] | [mode, numbers] => (mode, numbers),
        [mode, numbers, "a state of stamp 9" | NOT_ZEROS] => (mode, numbers),
        _ => panic!("not a setup"),
    };
    let mode = ["plain", "merging"].iter().position(|&it| it == mode);
    let numbers = numbers.replace('Δ', "delta").replace('K', "k");
    let numbers = numbers.replace('C', "c");
    setup(&format!("mode {} {numbers} {k}", mode.unwrap()))
}

fn lent_memory(setup: &str, configuration: &Configuration) -> Vec<Word> {
    if setup.ends_with(NOT_ZEROS) {
        (71..).take(configuration.words() as usize).collect()
    } else {
        zeros(configuration)
    }
}

/// All that document 01's machine tells in a run, in the words of the witnesses. K is given where the setup leaves it open.
fn told(setup: &str, k: &str, run: &str) -> Vec<String> {
    let configuration = match setup_said(setup, k).checked() {
        Some(configuration) => configuration,
        None => {
            let steps = 0..run.split(", ").count();
            let calls = steps.map(|it| format!("call {it} answers 1"));
            return calls.chain(["the check answers 1".to_string()]).collect();
        }
    };
    let mut machine = Machine::fresh_start(configuration, lent_memory(setup, &configuration));
    let mut told = vec![
        "the check answers 0".to_string(),
        "the fresh start answers 0".to_string(),
    ];
    let mut calls = 0;
    let run = run.replace("idle 4 times", "idle, idle, idle, idle");
    for step in run.split(", ") {
        match step {
            "no operation" => {
                told.extend(questions(&machine));
                told.extend(places(&configuration));
            }
            "fresh start" => {
                machine = Machine::fresh_start(configuration, machine.memory);
                calls += 1;
            }
            "2^32 idle" => {
                // After a fresh start idle cycles leave no trace but the cycle number.
                let turn = (1 << 32) % configuration.m;
                told.push(format!("call 2^32 − 1 leaves turn {turn}"));
            }
            _ => {
                told.extend(told_by_call(&mut machine, calls, operations(step)[0]));
                calls += 1;
            }
        }
    }
    told
}

fn told_by_call(machine: &mut Machine, call: usize, operation: Operation) -> Vec<String> {
    let cycle = machine.cycle;
    let Reply { answer, delivery } = machine.call(operation);
    let refused = matches!(answer, Answer::BadAddress | Answer::Stopped);
    let stamp = if refused { 0 } else { cycle as u32 };
    let word = delivery.map_or("none".to_string(), |word| word.to_string());
    let left = machine.cycle;
    let Configuration { m, c, .. } = machine.configuration;
    let mut told = vec![
        format!("call {call} answers {answer}"),
        format!("call {call} delivers {word}"),
        format!("call {call} has stamp {stamp}"),
        format!("call {call} leaves turn {}", left % m),
        format!("call {call} leaves position {}", left % c),
    ];
    let after = |it: String| format!("after call {call} {it}");
    if let (Operation::Write(address, word), Answer::Done) = (operation, answer) {
        let Cell(cell) = machine.configuration.cell(address);
        let held = machine.memory[cell as usize];
        let memory = format!("the memory holds {held}, the ideal SRAM {word}");
        told.push(after(memory));
    }
    told.extend(questions(machine).map(after));
    told
}

/// What the machine tells to a question of each bank, and of the first that is none.
fn questions(machine: &Machine) -> impl Iterator<Item = String> + '_ {
    (0..=machine.configuration.banks()).flat_map(move |bank| {
        let (answer, count) = machine.question(bank);
        let question = format!("a question of bank {bank}");
        [
            format!("{question} answers {answer}"),
            format!("{question} tells {count}"),
        ]
    })
}

/// Where each address lies, and the bank and the row of each cell.
fn places(configuration: &Configuration) -> impl Iterator<Item = String> + '_ {
    (0..configuration.words()).flat_map(move |address| {
        let cell = configuration.cell(Address(address));
        let (bank, row) = configuration.bank_and_row(cell);
        let Cell(number) = cell;
        [
            format!("address {address} has cell {number}"),
            format!("cell {number} has bank {bank}"),
            format!("cell {number} has row {row}"),
            format!("bank {bank} and row {row} are cell {number}"),
        ]
    })
}

/// What a claim promises of the machine; with which K, where the setup leaves it open.
fn promised(claim: &str) -> Vec<(&str, String)> {
    let at_depths: &[_] = match claim {
        "both take the read at cycle 0" => {
            &[("k 1", "call 0 answers 0"), ("k 2", "call 0 answers 0")]
        }
        "call 1 answers 5 with K 1 and 0 with K 2" => {
            &[("k 1", "call 1 answers 5"), ("k 2", "call 1 answers 0")]
        }
        "call 6 delivers 1 with K 1 and 2 with K 2" => {
            &[("k 1", "call 6 delivers 1"), ("k 2", "call 6 delivers 2")]
        }
        _ => return vec![("", promised_for_the_wrong(claim))],
    };
    let at_depths = at_depths.iter();
    at_depths.map(|&(k, due)| (k, due.to_string())).collect()
}

/// The claim with the promised value in the place of the wrong one.
fn promised_for_the_wrong(claim: &str) -> String {
    match claim.split_once(", promised ") {
        Some((wrong, promised)) => {
            let (of, value) = wrong.rsplit_once(' ').unwrap();
            let is_value = ["none", "unready"].contains(&value) || value.parse::<Word>().is_ok();
            assert!(is_value && value != promised, "not a wrong value");
            format!("{of} {promised}")
        }
        None => claim.to_string(),
    }
}

#[test]
fn the_machine_of_document_01_tells_what_the_witnesses_promise() {
    let (mut ran, mut not_told) = (0, 0);
    for (edit, _, witness) in witnesses() {
        println!("{edit}: {witness}");
        let behind_the_setup = witness.split_once("; ").unwrap().1;
        if NOT_TOLD.contains(&behind_the_setup) || NOT_TOLD.contains(&witness.as_str()) {
            not_told += 1;
        } else {
            let [setup, run, claim] = parts(&witness);
            for (k, due) in promised(claim) {
                assert!(told(setup, k, run).contains(&due), "not so: {k} {due}");
            }
            ran += 1;
        }
    }
    assert_eq!(not_told, NOT_TOLD.len());
    assert!(ran >= 50, "only {ran} witnesses were run");
}

/// The rows of the tables of wrong programs that have a column of witnesses: the edit, what is wrong where that is said
/// too, and the witness.
fn rows_of_the_page() -> Vec<(String, Option<String>, String)> {
    let page = fs::read_to_string(beside("docs/promises/wrong-programs.md")).unwrap();
    let mut columns = Vec::new();
    let mut rows = Vec::new();
    for line in page.lines() {
        let cells: Vec<String> = line.split(" | ").map(cell_of).collect();
        if !line.starts_with('|') {
            columns.clear();
        } else if line.starts_with("|---") {
            continue;
        } else if columns.is_empty() {
            columns = cells;
        } else if let Some(witness) = columns.iter().position(|it| it == "Witness") {
            let wrong = columns.iter().position(|it| it == "What is wrong");
            let wrong = wrong.map(|it| cells[it].clone());
            rows.push((cells[0].clone(), wrong, cells[witness].clone()));
        }
    }
    rows
}

fn cell_of(text: &str) -> String {
    text.trim_matches(|it| it == '|' || it == ' ')
        .replace('`', "")
}

#[test]
fn the_page_of_wrong_programs_has_the_same_witnesses() {
    let rows = rows_of_the_page();
    for (edit, wrong, witness) in witnesses() {
        let label = edit.strip_prefix("model/must-fail/");
        let path = format!("crates/{edit}.edit");
        let mut of_it = rows.iter().filter(|row| row.0 == label.unwrap_or(&path));
        match (of_it.next(), of_it.next()) {
            (Some((_, said, there)), None) => {
                assert_eq!(*there, witness, "{edit}");
                assert!(said.as_ref().map_or(true, |it| *it == wrong), "{edit}");
            }
            (None, None) => assert!(label.is_none(), "{edit} is not on the page"),
            _ => panic!("{edit} is on the page twice"),
        }
    }
    assert!(rows.len() >= 50, "only {} rows", rows.len());
}
