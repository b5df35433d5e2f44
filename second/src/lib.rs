//! An independent second program: it decides from document 01 alone what `cyclerun` must print.
//!
//! It keeps the history of a run (the operations taken, what was placed and served at each bank) and has neither
//! reservation table nor request buffers, so that it does not share the mistakes of a program that has them.

pub mod answer;
pub mod compare;
pub mod draw;
pub mod files;
pub mod generate;
pub mod history;
pub mod listing;
pub mod map;
pub mod port;
pub mod random;
pub mod records;
pub mod setup;
pub mod text;
