//! From address to bank.

use crate::setup::Configuration;

/// What the line card sends.
#[derive(Clone, Copy, Debug, PartialEq, Eq, Hash)]
pub struct Address(pub u32);

/// An address after the permutation; memory is indexed by it.
#[derive(Clone, Copy, Debug, PartialEq, Eq, Hash)]
pub struct Cell(pub u32);

impl Configuration {
    /// (u·address + v) mod N.
    pub fn cell(&self, Address(address): Address) -> Cell {
        let image = u64::from(self.u) * u64::from(address) + u64::from(self.v);
        Cell((image % u64::from(self.words())) as u32)
    }

    /// The bank of a cell and its row inside that bank: the top s of the cell's a bits, and the rest. So bank b has the
    /// N/B cells from b·N/B on, in their order.
    pub fn bank_and_row(&self, Cell(cell): Cell) -> (usize, u32) {
        let words = self.words_in_bank();
        ((cell / words) as usize, cell % words)
    }

    pub fn bank(&self, cell: Cell) -> usize {
        self.bank_and_row(cell).0
    }

    pub fn bank_of(&self, address: Address) -> usize {
        self.bank(self.cell(address))
    }
}
