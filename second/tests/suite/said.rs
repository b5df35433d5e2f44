//! Setups, operations and runs as the tests say them.

use second::generate::{setups, traffic};
use second::history::Operation;
use second::listing::write_listing;
use second::port::{Port, Reply};
use second::random::Random;
use second::records::{read_operation, read_setup, OPERATION_LENGTH};
use second::setup::{Configuration, Setup};
use second::text;

pub fn setup(said: &str) -> Setup {
    read_setup(&text::pack_setup(said).unwrap()).unwrap()
}

pub fn configuration(said: &str) -> Configuration {
    setup(said).checked().unwrap()
}

/// The operations between the commas.
pub fn operations(said: &str) -> Vec<Operation> {
    let records = text::pack_operations(&said.replace(", ", "\n")).unwrap();
    let operations = records.chunks(OPERATION_LENGTH).map(read_operation);
    operations.map(Option::unwrap).collect()
}

pub fn replies(configuration: Configuration, operations: &[Operation]) -> Vec<Reply> {
    let mut port = Port::fresh_start(configuration);
    operations.iter().map(|&it| port.call(it)).collect()
}

pub fn answers(configuration: Configuration, operations: &[Operation]) -> Vec<u8> {
    let replies = replies(configuration, operations);
    replies.iter().map(|reply| reply.answer.number()).collect()
}

pub fn listing(setup: Option<&[u8]>, operations: &[u8]) -> String {
    let mut listing = Vec::new();
    write_listing(setup, operations, &mut listing).unwrap();
    String::from_utf8(listing).unwrap()
}

/// A generated configuration with operations for it.
pub fn generated(seed: u64) -> (Configuration, Vec<Operation>) {
    let mut random = Random::new(seed);
    let configuration = setups::good(&mut random).checked().unwrap();
    let operations = traffic::operations(&configuration, &mut random);
    (configuration, operations)
}
