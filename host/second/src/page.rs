//! The shown page: which cell of private memory stands in a row and a column of the screen, or in a
//! row and a position.

use crate::address::{address, code_block, Address};
use crate::board::Board;
use crate::cell::Cell;
use crate::code::Code;
use crate::mode::Mode;
use crate::packing::nibble;
use crate::part::Part;
use crate::{COLUMNS, POSITIONS};

/// The page that TGS, ROR and DOR choose in a memory of the right length for its board.
#[derive(Clone, Copy)]
pub struct Page<'a> {
    pub mode: Mode,
    pub board: Board,
    /// Of its three blocks.
    pub first: usize,
    pub ror: u8,
    pub dor: u8,
    pub memory: &'a [u8],
}

/// "Screen row 0 is Y = 0; row r from 1 is Y = 8 + (YOR − 8 + r − 1) modulo 24." The modulo is that
/// of whole numbers, so an origin below 8, which is never drawn, has an answer too.
pub fn screen_y(ror: u8, row: usize) -> usize {
    if row == 0 {
        return 0;
    }
    let origin = i32::from(ror % 32);
    let row = i32::try_from(row).expect("a row number is small");
    let below = (origin - 8 + row - 1).rem_euclid(24);
    8 + usize::try_from(below).expect("a remainder is not negative")
}

/// "The first block Z is even, its Z3, Z2, Z1 being ROR bits 7, 6, 5", and on the TS9347 it "has DOR 7
/// as Z4 above ROR's bits".
pub fn first_block(part: Part, ror: u8, dor: u8) -> usize {
    let z4 = match part {
        Part::Ef9345 => 0,
        Part::Ts9347 => usize::from(dor >> 7),
    };
    16 * z4 + 2 * usize::from(ror >> 5)
}

impl Page<'_> {
    /// Where byte 0 (C), 1 (B) or 2 (A) of a cell is. In 80 columns the same three bytes hold the
    /// codes of two positions.
    pub fn code_address(&self, row: usize, column: usize, byte: usize) -> Address {
        let block = code_block(self.first, byte);
        address(column, screen_y(self.ror, row), block, self.board.blocks)
    }

    /// The byte there as the page shows it: 0 where it is not fitted, "also in 'the same three
    /// bytes', in A3 and in palettes".
    fn code_byte(&self, row: usize, column: usize, byte: usize) -> u8 {
        self.code_address(row, column, byte).drawn(self.memory)
    }

    pub fn cell(&self, row: usize, column: usize) -> Cell {
        Cell {
            part: self.board.part,
            c: self.code_byte(row, column, 0),
            b: self.code_byte(row, column, 1),
            a: self.code_byte(row, column, 2),
        }
    }

    /// The forty cells of a row, from the left.
    pub fn cells(&self, row: usize) -> impl Iterator<Item = Cell> + '_ {
        (0..COLUMNS).map(move |column| self.cell(row, column))
    }

    /// The 12-bit code at a position p: "X = p div 2. Its C byte is in the page's first block for an
    /// even p, in the next for an odd one. The third block's byte holds two nibbles of attributes".
    pub fn code(&self, row: usize, position: usize) -> Code {
        let (x, odd) = (position / 2, position % 2 == 1);
        let packed = self.code_byte(row, x, 2);
        Code {
            c: self.code_byte(row, x, usize::from(odd)),
            nibble: nibble(packed, odd),
        }
    }

    /// The eighty codes of a row, from the left.
    pub fn codes(&self, row: usize) -> impl Iterator<Item = Code> + '_ {
        (0..POSITIONS).map(move |position| self.code(row, position))
    }
}
