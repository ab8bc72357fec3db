//! The 12-bit code of a cell of 80 columns: a C byte and a nibble of attributes.

#[derive(Clone, Copy, Debug, PartialEq, Eq)]
pub struct Code {
    pub c: u8,
    /// Four bits.
    pub nibble: u8,
}

impl Code {
    /// "C7 = 1: a mosaic"; else it is a character of G0.
    pub fn is_mosaic(self) -> bool {
        self.c >> 7 & 1 == 1
    }

    /// The negative bit as a number, since the phase is compared with it. "A mosaic never flashes,
    /// is never underlined and never negative": its bits 3, 2 and 1 are windows.
    pub fn negative(self) -> u8 {
        if self.is_mosaic() {
            0
        } else {
            self.nibble >> 3 & 1
        }
    }

    pub fn is_flashing(self) -> bool {
        !self.is_mosaic() && self.nibble >> 2 & 1 == 1
    }

    pub fn is_underlined(self) -> bool {
        !self.is_mosaic() && self.nibble >> 1 & 1 == 1
    }

    /// D, of a character and of a mosaic, as a number.
    pub fn d(self) -> u8 {
        self.nibble & 1
    }
}
