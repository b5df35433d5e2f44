//! Records as text, there and back.

use second::random::Random;
use second::records::write_operation;
use second::text::{pack_operations, pack_setup, unpack_operations, unpack_setup};

use crate::said::generated;

const SETUP: &str = "mode 1 a 2 s 1 m 2 k 1 delta 2 c 3 u 1 v 0\n";

#[test]
fn a_setup_goes_there_and_back() {
    assert_eq!(unpack_setup(&pack_setup(SETUP).unwrap()).unwrap(), SETUP);
}

#[test]
fn a_setup_may_stand_on_several_lines_in_any_order() {
    let said = "# the address map\nu 1 v 0\n\nc 3 delta 2 # rows\nmode 1 a 2 s 1 m 2 k 1\n";
    assert_eq!(pack_setup(said), pack_setup(SETUP));
}

#[test]
fn operations_go_there_and_back() {
    for seed in 0..50 {
        let (_, operations) = generated(seed);
        let records: Vec<u8> = operations.into_iter().flat_map(write_operation).collect();
        let (said, ending) = unpack_operations(&records);
        assert_eq!(ending, Ok(()));
        assert_eq!(pack_operations(&said), Ok(records));
    }
}

#[test]
fn comments_and_blank_lines_are_skipped() {
    let said = "# a sequence\n\n  write 1 10 # ten\n\tidle\n\n";
    let due = [2, 0, 0, 0, 1, 0, 0, 0, 10, 0, 0, 0].into_iter();
    let due: Vec<u8> = due.chain([0; 12]).collect();
    assert_eq!(pack_operations(said), Ok(due));
}

#[test]
fn a_bad_operation_is_reported_by_its_line() {
    for bad in [
        "idle 0",
        "read",
        "read 1 2",
        "read x",
        "read -1",
        "read 4294967296",
        "write 1",
        "write 1 4294967296",
        "write 1 2 3",
        "jump",
    ] {
        let message = pack_operations(&format!("idle\n\n{bad}\n")).unwrap_err();
        assert_eq!(message, format!("line 3: not an operation: {bad}"));
    }
}

#[test]
fn a_bad_setup_number_is_reported_by_its_line() {
    for bad in ["a", "a x", "z 1", "mode 256", "k 65536", "u 4294967296"] {
        let message = pack_setup(&format!("# setup\n{bad}\n")).unwrap_err();
        assert_eq!(message, format!("line 2: not a number of a setup: {bad}"));
    }
    let twice = pack_setup(&format!("{SETUP}a 2")).unwrap_err();
    assert_eq!(twice, "line 2: not a number of a setup: a 2");
    let short = pack_setup("mode 1 a 2 s 1 m 2 k 1 delta 2 u 1 v 0").unwrap_err();
    assert_eq!(short, "the setup has no number c");
}

#[test]
fn a_bad_record_is_reported_by_its_number() {
    let (said, ending) = unpack_operations(&[[0; 12], [3; 12]].concat());
    assert_eq!(said, "idle\n");
    assert_eq!(ending, Err("record 1: not an operation".to_string()));
    let mut record = pack_setup(SETUP).unwrap();
    record[11] = 1;
    assert_eq!(
        unpack_setup(&record),
        Err("record 0: not a setup".to_string())
    );
}

#[test]
fn no_bytes_make_the_text_fail() {
    let mut random = Random::new(5);
    for _ in 0..2000 {
        let bytes: Vec<u8> = (0..random.below(60))
            .map(|_| random.number() as u8)
            .collect();
        let said = String::from_utf8_lossy(&bytes);
        let _ = (pack_setup(&said), pack_operations(&said));
        let _ = (unpack_setup(&bytes), unpack_operations(&bytes));
    }
}
