//! A writer of cells in 80 columns: each cell as the register writes by which KRL stores it.

use super::code::Code;
use crate::access::Access;
use crate::registers::{y_of, Registers};

/// Two cells share a column.
const COLUMNS: u8 = 40;

const KRL_WITH_INCREMENT: u8 = 0x51;

/// R7 bit 7, Z0 of the main pointer: the right one of the two cells.
const RIGHT: u8 = 0x80;

#[derive(Clone, Debug)]
pub struct Writer {
    registers: Registers,
}

impl Writer {
    /// Goes on where the registers were left.
    pub fn of(registers: Registers) -> Writer {
        Writer { registers }
    }

    pub fn accesses(self) -> Vec<Access> {
        self.registers.accesses()
    }

    /// Points the main pointer at a position of the page, which is in the blocks from 0 on.
    pub fn at(&mut self, row: usize, position: usize) {
        let right = if position % 2 == 1 { RIGHT } else { 0 };
        self.registers.set(6, y_of(row));
        self.registers.set(7, right | (position / 2) as u8);
    }

    /// Stores the code of a cell at the main pointer by KRL, and goes on to the next position. The
    /// attributes are repeated in R3, so that they are right for either cell of a column.
    pub fn cell(&mut self, code: Code) {
        self.registers.set(0, KRL_WITH_INCREMENT);
        self.registers.set(3, 0x11 * code.attributes);
        self.registers.execute(1, code.c);
        let next = next(self.registers.held(7));
        self.registers.changed(7, next);
    }
}

/// From the left cell of a column to its right one, from there to the next column, and from the last
/// column to the first of the same row.
fn next(r7: u8) -> u8 {
    if r7 & RIGHT == 0 {
        r7 | RIGHT
    } else {
        (r7 - RIGHT + 1) % COLUMNS
    }
}
