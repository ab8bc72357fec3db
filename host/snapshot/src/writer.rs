//! A writer of cells in 40 columns, with the code of three bytes: each cell and each user character
//! as the register writes that store it, by the pointers that the part has.

use binturamis::Part;

use crate::access::Access;
use crate::code::Code;
use crate::registers::{y_of, Registers};

/// The columns of the page; the pointer goes back to the first from the last.
const COLUMNS: u8 = 40;

/// The bits of R7 that are X; the others are Z0 and Z1.
const X: u8 = 0x3F;

/// Commands, as they are written to R0.
const KRF_WITH_INCREMENT: u8 = 0x01;
const OCT_AT_AUXILIARY: u8 = 0x34;
const MVT_FROM_MAIN_WITH_STOP: u8 = 0xF5;

#[derive(Clone, Debug)]
pub struct Writer {
    registers: Registers,
    part: Part,
    /// The first block of the page.
    page: u8,
}

impl Writer {
    /// Of an EF9345, with the page in the blocks from 0 on. Goes on where the registers were left.
    pub fn of(registers: Registers) -> Writer {
        Writer {
            registers,
            part: Part::Ef9345,
            page: 0,
        }
    }

    /// Of a TS9347, with the page in the blocks from an even one on.
    pub fn of_ts9347(registers: Registers, page: u8) -> Writer {
        Writer {
            registers,
            part: Part::Ts9347,
            page,
        }
    }

    pub fn part(&self) -> Part {
        self.part
    }

    pub fn accesses(self) -> Vec<Access> {
        self.registers.accesses()
    }

    /// Points the main pointer at a cell of the page.
    pub fn at(&mut self, row: usize, column: usize) {
        let (x, y) = (column as u8, y_of(row));
        match self.part {
            Part::Ef9345 => {
                let auxiliary_z3 = self.registers.held(6) & 0x40;
                self.registers.set(6, auxiliary_z3 | y);
                self.registers.set(7, x);
            }
            Part::Ts9347 => self.point([6, 7], x, y, self.page),
        }
    }

    /// Stores the code of a cell at the main pointer by KRF, and goes on to the next column. From
    /// the last column it goes back to the first of the same row.
    pub fn cell(&mut self, code: Code) {
        self.registers.set(0, KRF_WITH_INCREMENT);
        self.registers.set(2, code.b);
        self.registers.set(3, code.a);
        self.registers.execute(1, code.c);
        let held = self.registers.held(7);
        let next = ((held & X) + 1) % COLUMNS;
        self.registers.changed(7, held & !X | next);
    }

    /// Stores the slices of a user or quadrichrome character in a block, by OCT at the auxiliary
    /// pointer: slice n is at Y = C bits 6..2 and X = 4n + C bits 1..0. Increment would not help,
    /// since a character's slices are four columns apart.
    pub fn slices(&mut self, block: u8, character: u8, slices: &[u8; 10]) {
        self.registers.set(0, OCT_AT_AUXILIARY);
        for (slice, byte) in (0..).zip(slices) {
            self.auxiliary(4 * slice + character % 4, character % 128 / 4, block);
            self.registers.execute(1, *byte);
        }
    }

    /// Copies a row of the page to another by MVT, from the main pointer to the auxiliary one. An EF9345 alone
    /// has moves. What is written next waits until the move has ended, which it does with the row.
    pub fn copy_row(&mut self, from: usize, to: usize) {
        assert_eq!(self.part, Part::Ef9345, "a TS9347 has no moves");
        self.auxiliary(0, y_of(to), self.page);
        self.at(from, 0);
        self.registers.execute(0, MVT_FROM_MAIN_WITH_STOP);
        // Both pointers are at X 0 again, and R1 has the last byte that was moved.
        self.registers.forget(1);
    }

    fn auxiliary(&mut self, x: u8, y: u8, z: u8) {
        match self.part {
            Part::Ef9345 => self.auxiliary_of_ef9345(x, y, z),
            Part::Ts9347 => self.point([4, 5], x, y, z),
        }
    }

    /// Z2 stands beside Y in R4, Z0 and Z1 beside X in R5, and Z3 alone in R6 bit 6.
    fn auxiliary_of_ef9345(&mut self, x: u8, y: u8, z: u8) {
        let bit = |number: u8| z >> number & 1;
        let main = self.registers.held(6) & !0x40;
        self.registers.set(6, main | bit(3) << 6);
        self.registers.set(4, bit(2) << 5 | y);
        self.registers.set(5, bit(0) << 7 | bit(1) << 6 | x);
    }

    /// Either pointer of a TS9347, by its two registers: Z4, Z3 and Z2 stand beside Y, Z0 and Z1 beside X.
    fn point(&mut self, [down, across]: [u8; 2], x: u8, y: u8, z: u8) {
        let bit = |number: u8| z >> number & 1;
        self.registers.set(down, (z / 4) << 5 | y);
        self.registers.set(across, bit(0) << 7 | bit(1) << 6 | x);
    }
}
