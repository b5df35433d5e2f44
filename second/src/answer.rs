//! The answer numbers that reach `cyclerun`'s listing.

use std::fmt;

/// Document 01's answer table, less 2 and 3: nothing is lent here, and no state is handed in.
#[derive(Clone, Copy, Debug, PartialEq, Eq, PartialOrd, Ord, Hash)]
#[repr(u8)]
pub enum Answer {
    /// The cycle passes and nothing is dropped.
    Done = 0,
    /// A configuration number is out of range, or the setup is no setup record.
    OutOfRange = 1,
    /// The address is at or above N.
    BadAddress = 4,
    /// The arriving operation needs a place and its buffer holds K.
    Dropped = 5,
    /// A retiring write needs a place and its buffer holds K.
    Stops = 6,
    /// An earlier call answered 6.
    Stopped = 7,
    /// The setup is too large for the program's own room.
    NoRoom = 8,
    /// The record is no operation record.
    BadRecord = 9,
}

impl Answer {
    pub fn number(self) -> u8 {
        self as u8
    }
}

impl fmt::Display for Answer {
    fn fmt(&self, formatter: &mut fmt::Formatter) -> fmt::Result {
        self.number().fmt(formatter)
    }
}
