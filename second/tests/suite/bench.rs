//! P1 to P9 of document 01, with the bank by the top bits of the cell.

use crate::said::{answers, configuration, listing, operations, setup};
use second::map::{Address, Cell};
use second::port::Port;
use second::text;

#[test]
fn p1_address_to_cell_bank_and_row() {
    let configuration = configuration("mode 0 a 4 s 2 m 1 k 1 delta 0 c 0 u 5 v 3");
    let cell = configuration.cell(Address(7));
    assert_eq!(cell, Cell(6));
    assert_eq!(configuration.bank_and_row(cell), (1, 2));
}

#[test]
fn p2_delta_at_least_k_times_m() {
    let with_delta = |delta| setup(&format!("mode 0 a 4 s 2 m 3 k 2 delta {delta} c 0 u 1 v 0"));
    assert!(with_delta(6).checked().is_some());
    assert!(with_delta(5).checked().is_none());
}

#[test]
fn p3_c_at_least_delta() {
    let with_c = |c| setup(&format!("mode 0 a 4 s 2 m 3 k 2 delta 6 c {c} u 1 v 0"));
    assert!(with_c(6).checked().is_some());
    assert!(with_c(5).checked().is_none());
    assert_eq!(with_c(0).checked().map(|checked| checked.c), Some(6));
}

#[test]
fn p4_address_bits_and_odd_u() {
    let with = |a, u| setup(&format!("mode 0 a {a} s 2 m 3 k 2 delta 6 c 6 u {u} v 0"));
    assert!(with(20, 1).checked().is_some());
    assert!(with(21, 1).checked().is_none());
    assert!(with(20, 2).checked().is_none());
}

#[test]
fn p5_a_full_buffer_drops_and_a_served_one_takes() {
    let configuration = configuration("mode 0 a 1 s 0 m 2 k 1 delta 0 c 0 u 1 v 0");
    let operations = operations("read 0, read 0, read 0");
    assert_eq!(answers(configuration, &operations), [0, 5, 0]);
}

#[test]
fn p6_reads_merge_while_the_first_is_live() {
    assert_eq!(p6_entries_placed("read 0, idle, read 0"), 1);
    assert_eq!(p6_entries_placed("read 0, idle, idle, read 0"), 2);
}

fn p6_entries_placed(said: &str) -> usize {
    let mut port = Port::fresh_start(configuration("mode 1 a 1 s 0 m 1 k 1 delta 1 c 3 u 1 v 0"));
    for operation in operations(said) {
        assert_eq!(port.call(operation).answer.number(), 0);
    }
    port.placed(0)
}

#[test]
fn p7_a_replaced_write_never_reaches_the_memory() {
    let mut port = Port::fresh_start(configuration("mode 1 a 1 s 0 m 1 k 1 delta 1 c 2 u 1 v 0"));
    let mut held = Vec::new();
    for operation in operations("write 0 5, write 0 6, idle, idle, idle, idle, idle") {
        assert_eq!(port.call(operation).answer.number(), 0);
        held.push(port.memory_word(Cell(0)));
    }
    assert_eq!(held, [0, 0, 0, 0, 6, 6, 6]);
}

#[test]
fn p8_retiring_writes_of_two_banks_each_have_a_place() {
    let operations = "write 0 10, write 2 20, idle, idle, idle, read 0";
    assert_eq!(p8_answers(operations), [0, 0, 0, 0, 0, 0]);
}

#[test]
fn p8_stop_a_retiring_write_without_a_place_stops_the_port() {
    let operations = "write 0 10, write 1 20, idle, idle, idle, read 0";
    assert_eq!(p8_answers(operations), [0, 0, 0, 6, 7, 7]);
}

fn p8_answers(said: &str) -> Vec<u8> {
    let configuration = configuration("mode 1 a 2 s 1 m 2 k 1 delta 2 c 2 u 1 v 0");
    answers(configuration, &operations(said))
}

#[test]
fn p9_the_whole_output() {
    let setup = text::pack_setup("mode 1 a 2 s 1 m 2 k 1 delta 2 c 3 u 1 v 0").unwrap();
    let operations = text::pack_operations(
        "write 1 10\n read 1\n read 2\n idle\n read 2\n read 3\n read 1\n idle",
    );
    let due = "\
0 0 -
1 0 -
2 0 -
3 0 10
4 0 0
5 0 -
6 0 0
7 0 0
";
    assert_eq!(listing(Some(&setup), &operations.unwrap()), due);
}
