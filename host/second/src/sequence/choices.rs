//! The small choices that plans are made by.

use crate::board::Board;
use crate::cell::Cell;
use crate::code::Code;
use crate::part::Part;
use crate::random::Random;
use crate::{COLUMNS, POSITIONS, ROWS};

use super::Sequence;

/// Characters that come back often, so that cells share slices; 10 and 1F hex have no legal slices.
const CHARACTERS: [u8; 8] = [0x00, 0x03, 0x10, 0x1F, 0x20, 0x4B, 0xCB, 0x7F];

impl Sequence {
    pub(super) fn row(&mut self) -> usize {
        self.random.below(ROWS)
    }

    /// A column; a few come back often, so that runs and later changes meet.
    pub(super) fn column(&mut self) -> usize {
        if self.random.one_in(3) {
            self.random.below(COLUMNS)
        } else {
            self.random.choice(&[0, 1, 2, 39])
        }
    }

    /// A position of 80 columns; a few come back often.
    pub(super) fn position(&mut self) -> usize {
        if self.random.one_in(3) {
            self.random.below(POSITIONS)
        } else {
            self.random.choice(&[0, 1, 2, 3, 78, 79])
        }
    }

    /// A slice; 0 and FF hex come back often.
    pub(super) fn value(&mut self) -> u8 {
        match self.random.below(6) {
            0 => 0x00,
            1 => 0xFF,
            _ => self.random.byte(),
        }
    }

    /// A value for ROR whose origin is 8 to 31. On a smaller board most pages have a block that is
    /// fitted: on that of 2 blocks those at 0, without their third, and those at 2, whose third is 0.
    pub(super) fn origin(&mut self, board: Board) -> u8 {
        let byte = self.random.byte();
        let origin = 8 + byte % 24;
        let first = match board.blocks {
            2 if !self.random.one_in(5) => byte / 128,
            8 if !self.random.one_in(4) => byte / 64,
            _ => byte / 32,
        };
        32 * first + origin
    }

    /// A value for DOR, on a smaller board most often one that names blocks which are fitted.
    pub(super) fn user_sets(&mut self, board: Board) -> u8 {
        let byte = self.random.byte();
        match board.blocks {
            2 if !self.random.one_in(3) => byte & 0x01,
            8 if !self.random.one_in(3) => byte & 0x37,
            _ => byte,
        }
    }

    pub(super) fn cell(&mut self, part: Part) -> Cell {
        let byte = self.random.byte();
        let mut b = match self.random.below(10) {
            0..=2 => 0xC0 + byte % 0x40,
            3..=6 => 0x80 + byte % 0x40,
            _ => byte % 0x80,
        };
        if self.calm && !self.random.one_in(12) {
            b &= 0xFD;
        }
        let c = if self.random.one_in(2) {
            self.random.choice(&CHARACTERS)
        } else {
            self.random.byte()
        };
        let mut cell = Cell {
            part,
            c,
            b,
            a: self.random.byte(),
        };
        if self.still && !cell.is_quadrichrome() && !self.random.one_in(6) {
            cell.a &= 0xF7;
        }
        if cell.is_quadrichrome() && self.random.one_in(3) {
            cell.a = short_palette(&mut self.random);
        }
        cell
    }

    /// A character or a mosaic of 80 columns.
    pub(super) fn code(&mut self) -> Code {
        let mut nibble = self.random.byte() % 16;
        if self.still && !self.random.one_in(6) {
            nibble &= 0b1011;
        }
        let c = self.random.byte();
        Code { c, nibble }
    }
}

/// The B byte of a cell that is bichrome: where it is not, the byte becomes that of a set in the ROM.
pub fn bichrome_b(cell: Cell) -> u8 {
    if cell.is_quadrichrome() {
        cell.b - 0xC0
    } else {
        cell.b
    }
}

/// A palette of none to three colours, each number of them as often as the others.
pub fn short_palette(random: &mut Random) -> u8 {
    let (colours, mut palette) = (random.below(4), 0u8);
    while (palette.count_ones() as usize) < colours {
        palette |= 1 << random.below(8);
    }
    palette
}
