//! The runs of `docs/COURSE.md`: what stands beside each operation is its listing.

use crate::said::listing;
use second::text::{pack_operations, pack_setup};
use std::fs;
use std::path::Path;

/// A run as a block shows it: the setup, a line of headings, then an operation a line with its line of the listing.
struct Shown<'a> {
    setup: &'a str,
    operations: String,
    listing: String,
}

fn shown(block: &str) -> Option<Shown<'_>> {
    let mut lines = block.trim().lines();
    let setup = lines.next().filter(|line| line.starts_with("mode "))?;
    let (mut operations, mut listing) = (String::new(), String::new());
    for line in lines.skip(1) {
        let mut columns = line.split("  ").filter(|column| !column.is_empty());
        operations += &format!("{}\n", columns.next()?);
        listing += &format!("{}\n", columns.next()?.trim());
    }
    Some(Shown {
        setup,
        operations,
        listing,
    })
}

#[test]
fn the_runs_of_the_course_are_listed_as_they_are() {
    let course = Path::new(env!("CARGO_MANIFEST_DIR")).join("../docs/COURSE.md");
    let course = fs::read_to_string(course).unwrap();
    let blocks = course.split("```").skip(1).step_by(2);
    let runs: Vec<Shown> = blocks.filter_map(shown).collect();
    assert_eq!(runs.len(), 8);
    for run in runs {
        let setup = pack_setup(run.setup).unwrap();
        let operations = pack_operations(&run.operations).unwrap();
        assert_eq!(listing(Some(&setup), &operations), run.listing);
    }
}
