//! The house records: fixed size, no header, little-endian.

use crate::history::Operation;
use crate::map::Address;
use crate::setup::Setup;

pub const SETUP_LENGTH: usize = 20;
pub const OPERATION_LENGTH: usize = 12;

const IDLE: u8 = 0;
const READ: u8 = 1;
const WRITE: u8 = 2;

/// The setup of a record, or nothing where its length or a zero byte is wrong. The ranges are not looked at.
pub fn read_setup(record: &[u8]) -> Option<Setup> {
    match *<&[u8; SETUP_LENGTH]>::try_from(record).ok()? {
        [mode, a, s, m, k0, k1, d0, d1, c0, c1, 0, 0, u0, u1, u2, u3, v0, v1, v2, v3] => {
            Some(Setup {
                mode,
                a,
                s,
                m,
                k: u16::from_le_bytes([k0, k1]),
                delta: u16::from_le_bytes([d0, d1]),
                c: u16::from_le_bytes([c0, c1]),
                u: u32::from_le_bytes([u0, u1, u2, u3]),
                v: u32::from_le_bytes([v0, v1, v2, v3]),
            })
        }
        _ => None,
    }
}

/// The record of a setup as written; a default given as 0 stays 0, and a number out of range stays what it is.
pub fn write_setup(setup: &Setup) -> Vec<u8> {
    [
        &[setup.mode, setup.a, setup.s, setup.m][..],
        &setup.k.to_le_bytes(),
        &setup.delta.to_le_bytes(),
        &setup.c.to_le_bytes(),
        &[0, 0],
        &setup.u.to_le_bytes(),
        &setup.v.to_le_bytes(),
    ]
    .concat()
}

/// The operation of a record, or nothing where document 01 answers 9.
pub fn read_operation(record: &[u8]) -> Option<Operation> {
    let (kind, address, word) = match *<&[u8; OPERATION_LENGTH]>::try_from(record).ok()? {
        [kind, 0, 0, 0, a0, a1, a2, a3, w0, w1, w2, w3] => (
            kind,
            u32::from_le_bytes([a0, a1, a2, a3]),
            u32::from_le_bytes([w0, w1, w2, w3]),
        ),
        _ => return None,
    };
    match (kind, address, word) {
        (IDLE, 0, 0) => Some(Operation::Idle),
        (READ, address, 0) => Some(Operation::Read(Address(address))),
        (WRITE, address, word) => Some(Operation::Write(Address(address), word)),
        _ => None,
    }
}

pub fn write_operation(operation: Operation) -> Vec<u8> {
    let (kind, address, word) = match operation {
        Operation::Idle => (IDLE, 0, 0),
        Operation::Read(Address(address)) => (READ, address, 0),
        Operation::Write(Address(address), word) => (WRITE, address, word),
    };
    [[kind, 0, 0, 0], address.to_le_bytes(), word.to_le_bytes()].concat()
}
