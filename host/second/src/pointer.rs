//! The main and the auxiliary pointer: from registers to X, Y and block, and back.

use crate::address::{legal, place};
use crate::part::Part;

#[derive(Clone, Copy, Debug, PartialEq, Eq)]
pub enum Which {
    Main,
    Auxiliary,
}

#[derive(Clone, Copy, Debug, PartialEq, Eq)]
pub struct Pointer {
    pub x: usize,
    pub y: usize,
    pub z: usize,
}

fn bit(byte: u8, number: u8) -> usize {
    usize::from(byte >> number & 1)
}

impl Pointer {
    /// R6 and R7 hold the main pointer, R4 and R5 the auxiliary one: Y is bits 4..0 of the first, X bits
    /// 5..0 of the second.
    pub fn of(part: Part, registers: &[u8; 8], which: Which) -> Pointer {
        let (down, across) = match which {
            Which::Main => (registers[6], registers[7]),
            Which::Auxiliary => (registers[4], registers[5]),
        };
        let high = match part {
            Part::Ef9345 => z3_of_ef9345(registers, which),
            Part::Ts9347 => 2 * bit(down, 7) + bit(down, 6),
        };
        Pointer {
            x: usize::from(across % 64),
            y: usize::from(down % 32),
            z: 8 * high + 4 * bit(down, 5) + 2 * bit(across, 6) + bit(across, 7),
        }
    }

    /// Refusal 4 is "X above 39 or Y from 1 to 7".
    pub fn legal(self) -> bool {
        legal(self.x, self.y)
    }

    pub fn place(self) -> usize {
        place(self.x, self.y, self.z)
    }

    /// The bytes to write to R6 and R7 so that the main pointer is this one; bit 6 of R6, where it is the
    /// auxiliary pointer's, is left 0.
    pub fn main_registers(self, part: Part) -> (u8, u8) {
        match part {
            Part::Ef9345 => {
                let (down, across) = self.low_registers();
                (down + if self.z / 8 == 1 { 0x80 } else { 0 }, across)
            }
            Part::Ts9347 => self.registers_of_ts9347(),
        }
    }

    /// The bytes to write to R4 and R5 so that the auxiliary pointer is this one, and the bit 6 to put in
    /// R6, where that is the auxiliary pointer's.
    pub fn auxiliary_registers(self, part: Part) -> (u8, u8, Option<bool>) {
        match part {
            Part::Ef9345 => {
                let (down, across) = self.low_registers();
                (down, across, Some(self.z / 8 == 1))
            }
            Part::Ts9347 => {
                let (down, across) = self.registers_of_ts9347();
                (down, across, None)
            }
        }
    }

    /// "Both pointers in one format with bits 7..5 beside Y being Z4..Z2".
    fn registers_of_ts9347(self) -> (u8, u8) {
        let (down, across) = self.low_registers();
        let high = 0x40 * (self.z / 8);
        (
            down + u8::try_from(high).expect("Z4 and Z3 fit a byte"),
            across,
        )
    }

    /// X, Y and the three low bits of the block, which stand alike on both parts.
    fn low_registers(self) -> (u8, u8) {
        let down = self.y + 0x20 * (self.z / 4 % 2);
        let across = self.x + 0x40 * (self.z / 2 % 2) + 0x80 * (self.z % 2);
        (
            u8::try_from(down).expect("Y and Z2 fit a byte"),
            u8::try_from(across).expect("X, Z1 and Z0 fit a byte"),
        )
    }
}

/// "R6 [..] bit 7 is Z3 [..]. Auxiliary: R4 and R5 likewise, except that its Z3 is R6 bit 6."
fn z3_of_ef9345(registers: &[u8; 8], which: Which) -> usize {
    match which {
        Which::Main => bit(registers[6], 7),
        Which::Auxiliary => bit(registers[6], 6),
    }
}
