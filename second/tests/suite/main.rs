//! The tests of the second program.

mod bench;
mod commands;
mod course;
mod demands;
mod draw;
mod examples;
mod generator;
mod map;
mod one_cycle;
mod records;
mod said;
mod setups;
mod text;
mod witnesses;
