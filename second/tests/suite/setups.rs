//! The ranges of a setup, one step on each side, and the room of `cyclerun`.

use crate::said::{listing, setup};
use second::generate::setups::{REFUSED, TOO_LARGE};
use second::records::{write_setup, SETUP_LENGTH};
use second::setup::Mode;

/// In range are all of the first and none of the second.
fn assert_ranges(in_range: &[&str], out_of_range: &[&str]) {
    for said in in_range {
        assert!(setup(said).checked().is_some(), "{said}");
    }
    for said in out_of_range {
        assert!(setup(said).checked().is_none(), "{said}");
    }
}

#[test]
fn mode_is_0_or_1() {
    assert_ranges(
        &[
            "mode 0 a 4 s 2 m 1 k 1 delta 0 c 0 u 1 v 0",
            "mode 1 a 4 s 2 m 1 k 1 delta 0 c 0 u 1 v 0",
        ],
        &["mode 2 a 4 s 2 m 1 k 1 delta 0 c 0 u 1 v 0"],
    );
}

#[test]
fn a_is_1_to_20() {
    assert_ranges(
        &[
            "mode 0 a 1 s 0 m 1 k 1 delta 0 c 0 u 1 v 0",
            "mode 0 a 20 s 0 m 1 k 1 delta 0 c 0 u 1 v 0",
        ],
        &[
            "mode 0 a 0 s 0 m 1 k 1 delta 0 c 0 u 1 v 0",
            "mode 0 a 0 s 0 m 1 k 1 delta 0 c 0 u 0 v 0",
            "mode 0 a 21 s 0 m 1 k 1 delta 0 c 0 u 1 v 0",
            "mode 0 a 32 s 0 m 1 k 1 delta 0 c 0 u 1 v 0",
            "mode 0 a 255 s 0 m 1 k 1 delta 0 c 0 u 1 v 0",
        ],
    );
}

#[test]
fn s_is_0_to_6_and_at_most_a() {
    assert_ranges(
        &[
            "mode 0 a 8 s 0 m 1 k 1 delta 0 c 0 u 1 v 0",
            "mode 0 a 8 s 6 m 1 k 1 delta 0 c 0 u 1 v 0",
            "mode 0 a 3 s 3 m 1 k 1 delta 0 c 0 u 1 v 0",
        ],
        &[
            "mode 0 a 8 s 7 m 1 k 1 delta 0 c 0 u 1 v 0",
            "mode 0 a 3 s 4 m 1 k 1 delta 0 c 0 u 1 v 0",
        ],
    );
}

#[test]
fn m_is_1_to_64() {
    assert_ranges(
        &[
            "mode 0 a 4 s 2 m 1 k 1 delta 64 c 64 u 1 v 0",
            "mode 0 a 4 s 2 m 64 k 1 delta 64 c 64 u 1 v 0",
        ],
        &[
            "mode 0 a 4 s 2 m 0 k 1 delta 65 c 65 u 1 v 0",
            "mode 0 a 4 s 2 m 0 k 1 delta 0 c 0 u 1 v 0",
            "mode 0 a 4 s 2 m 65 k 1 delta 65 c 65 u 1 v 0",
        ],
    );
}

#[test]
fn k_is_1_to_128() {
    assert_ranges(
        &[
            "mode 0 a 4 s 2 m 1 k 1 delta 129 c 129 u 1 v 0",
            "mode 0 a 4 s 2 m 1 k 128 delta 129 c 129 u 1 v 0",
        ],
        &[
            "mode 0 a 4 s 2 m 1 k 0 delta 129 c 129 u 1 v 0",
            "mode 0 a 4 s 2 m 1 k 0 delta 0 c 0 u 1 v 0",
            "mode 0 a 4 s 2 m 1 k 129 delta 129 c 129 u 1 v 0",
        ],
    );
}

#[test]
fn delta_is_k_times_m_to_4096_after_its_default() {
    assert_ranges(
        &[
            "mode 0 a 4 s 2 m 3 k 5 delta 15 c 0 u 1 v 0",
            "mode 0 a 4 s 2 m 3 k 5 delta 4096 c 0 u 1 v 0",
            "mode 0 a 4 s 2 m 32 k 128 delta 0 c 0 u 1 v 0",
        ],
        &[
            "mode 0 a 4 s 2 m 3 k 5 delta 14 c 0 u 1 v 0",
            "mode 0 a 4 s 2 m 3 k 5 delta 4097 c 0 u 1 v 0",
            "mode 0 a 4 s 2 m 33 k 128 delta 0 c 0 u 1 v 0",
            "mode 0 a 4 s 2 m 2 k 32768 delta 0 c 0 u 1 v 0",
        ],
    );
}

#[test]
fn c_is_delta_to_4096_after_its_default() {
    assert_ranges(
        &[
            "mode 0 a 4 s 2 m 3 k 5 delta 20 c 20 u 1 v 0",
            "mode 0 a 4 s 2 m 3 k 5 delta 20 c 4096 u 1 v 0",
            "mode 0 a 4 s 2 m 3 k 5 delta 0 c 15 u 1 v 0",
        ],
        &[
            "mode 0 a 4 s 2 m 3 k 5 delta 20 c 19 u 1 v 0",
            "mode 0 a 4 s 2 m 3 k 5 delta 20 c 4097 u 1 v 0",
            "mode 0 a 4 s 2 m 3 k 5 delta 0 c 14 u 1 v 0",
        ],
    );
}

#[test]
fn u_is_odd_and_u_and_v_are_below_n() {
    assert_ranges(
        &[
            "mode 0 a 4 s 2 m 1 k 1 delta 0 c 0 u 1 v 0",
            "mode 0 a 4 s 2 m 1 k 1 delta 0 c 0 u 15 v 15",
        ],
        &[
            "mode 0 a 4 s 2 m 1 k 1 delta 0 c 0 u 0 v 0",
            "mode 0 a 4 s 2 m 1 k 1 delta 0 c 0 u 14 v 0",
            "mode 0 a 4 s 2 m 1 k 1 delta 0 c 0 u 17 v 0",
            "mode 0 a 4 s 2 m 1 k 1 delta 0 c 0 u 1 v 16",
            "mode 0 a 4 s 2 m 1 k 1 delta 0 c 0 u 4294967295 v 0",
        ],
    );
}

#[test]
fn defaults_are_put_in() {
    let checked = setup("mode 1 a 4 s 2 m 3 k 5 delta 0 c 0 u 1 v 0").checked();
    let configuration = checked.unwrap();
    assert_eq!(configuration.mode, Mode::Merging);
    assert_eq!((configuration.delta, configuration.c), (15, 15));
    let checked = setup("mode 1 a 4 s 2 m 3 k 5 delta 17 c 0 u 1 v 0").checked();
    assert_eq!(checked.unwrap().c, 17);
}

#[test]
fn the_room_of_cyclerun_ends_where_document_01_says() {
    for said in [
        "mode 0 a 12 s 6 m 1 k 16 delta 0 c 0 u 1 v 0",
        "mode 0 a 12 s 3 m 1 k 128 delta 0 c 0 u 1 v 0",
        "mode 0 a 12 s 0 m 1 k 1 delta 0 c 1024 u 1 v 0",
        "mode 0 a 12 s 0 m 64 k 16 delta 0 c 0 u 1 v 0",
    ] {
        let record = write_setup(&setup(said));
        assert_eq!(listing(Some(&record), &[0; 12]), "0 0 -\n", "{said}");
    }
    for said in [
        "mode 0 a 13 s 6 m 1 k 16 delta 0 c 0 u 1 v 0",
        "mode 0 a 12 s 6 m 1 k 17 delta 0 c 0 u 1 v 0",
        "mode 0 a 12 s 0 m 1 k 1 delta 0 c 1025 u 1 v 0",
        "mode 0 a 12 s 0 m 1 k 1 delta 1025 c 0 u 1 v 0",
        "mode 0 a 12 s 0 m 25 k 41 delta 0 c 0 u 1 v 0",
    ] {
        let record = write_setup(&setup(said));
        assert_eq!(listing(Some(&record), &[0; 12]), "setup 8\n", "{said}");
    }
}

#[test]
fn the_generator_knows_setups_too_large_and_setups_refused() {
    for setup in TOO_LARGE {
        assert_eq!(
            listing(Some(&write_setup(&setup)), &[]),
            "setup 8\n",
            "{setup:?}"
        );
    }
    for setup in REFUSED {
        assert_eq!(
            listing(Some(&write_setup(&setup)), &[]),
            "setup 1\n",
            "{setup:?}"
        );
    }
}

#[test]
fn a_setup_that_is_no_record_is_refused() {
    let good = write_setup(&setup("mode 0 a 4 s 2 m 1 k 1 delta 0 c 0 u 1 v 0"));
    assert_eq!(listing(None, &[]), "setup 1\n");
    for length in 0..2 * SETUP_LENGTH {
        let record: Vec<u8> = good.iter().copied().cycle().take(length).collect();
        let due = if length == SETUP_LENGTH {
            ""
        } else {
            "setup 1\n"
        };
        assert_eq!(listing(Some(&record), &[]), due, "length {length}");
    }
    for at in [10, 11] {
        for bit in 0..8 {
            let mut record = good.clone();
            record[at] = 1 << bit;
            assert_eq!(listing(Some(&record), &[]), "setup 1\n", "byte {at}");
        }
    }
}
