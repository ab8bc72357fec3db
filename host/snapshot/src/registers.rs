//! Register accesses as a controller makes them, and what they have left in the registers, so that a
//! register which has the right value already is not written again.
//!
//! Address 20 hex is R0 and so on up to R7. The same register at an address eight higher is written
//! and then the command in R0 runs.

use crate::access::Access;

const REGISTERS: u8 = 0x20;
const EXECUTE: u8 = 0x08;

/// Commands, as they are written to R0.
const NOP: u8 = 0x91;
const IND: u8 = 0x80;

/// A register that is reached by IND, with its number r.
#[derive(Clone, Copy, Debug, PartialEq, Eq)]
pub enum Indirect {
    Tgs = 1,
    Mat = 2,
    Pat = 3,
    Dor = 4,
    Ror = 7,
}

/// The accesses written so far.
#[derive(Clone, Debug, Default)]
pub struct Registers {
    accesses: Vec<Access>,
    left: [Option<u8>; 8],
}

impl Registers {
    pub fn new() -> Registers {
        Registers::default()
    }

    pub fn accesses(self) -> Vec<Access> {
        self.accesses
    }

    /// NOP, which a controller executes first.
    pub fn nop(&mut self) {
        self.execute(0, NOP);
    }

    /// A value to TGS, MAT, PAT, DOR or ROR: in R1, taken over by IND.
    pub fn indirect(&mut self, register: Indirect, value: u8) {
        self.set(1, value);
        self.execute(0, IND + register as u8);
    }

    /// What a register holds: 0 from power-up on.
    pub fn held(&self, register: u8) -> u8 {
        self.left[usize::from(register)].unwrap_or(0)
    }

    /// A write that only stores.
    pub fn set(&mut self, register: u8, value: u8) {
        if self.left[usize::from(register)] != Some(value) {
            self.write(REGISTERS + register, value);
        }
        self.left[usize::from(register)] = Some(value);
    }

    /// A write after which the command runs.
    pub fn execute(&mut self, register: u8, value: u8) {
        self.write(REGISTERS + EXECUTE + register, value);
        self.left[usize::from(register)] = Some(value);
    }

    /// A command has changed a register by itself.
    pub fn changed(&mut self, register: u8, value: u8) {
        self.left[usize::from(register)] = Some(value);
    }

    /// A command has left in a register what is not known here: so it is written again before it is used.
    pub fn forget(&mut self, register: u8) {
        self.left[usize::from(register)] = None;
    }

    fn write(&mut self, address: u8, value: u8) {
        self.accesses.push(Access { address, value });
    }
}

/// The Y of a row of the screen, where the page has its origin at Y 8: row 0, the service row, is
/// Y 0, and row 1 is Y 8.
pub fn y_of(row: usize) -> u8 {
    match row {
        0 => 0,
        row => row as u8 + 7,
    }
}
