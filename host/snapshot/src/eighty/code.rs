//! The twelve bits of a cell in 80 columns, made from its character or its mosaic and its look.

/// The code of a cell: what KRL stores from R1 and from a half of R3.
#[derive(Clone, Copy, Debug, PartialEq, Eq)]
pub struct Code {
    pub c: u8,
    /// Four bits.
    pub attributes: u8,
}

/// The attribute D: which of the two foregrounds of DOR. The background is that of MAT everywhere.
#[derive(Clone, Copy, Debug, PartialEq, Eq)]
pub enum Ink {
    /// DOR 2..0.
    Low = 0,
    /// DOR 6..4.
    High = 1,
}

/// The attributes of a character. A mosaic has its ink alone.
#[derive(Clone, Copy, Debug, PartialEq, Eq)]
pub struct Look {
    ink: Ink,
    is_underlined: bool,
    is_flashing: bool,
    is_negative: bool,
}

impl Look {
    pub const fn of(ink: Ink) -> Look {
        Look {
            ink,
            is_underlined: false,
            is_flashing: false,
            is_negative: false,
        }
    }

    pub const fn underlined(self) -> Look {
        Look {
            is_underlined: true,
            ..self
        }
    }

    pub const fn flashing(self) -> Look {
        Look {
            is_flashing: true,
            ..self
        }
    }

    pub const fn negative(self) -> Look {
        Look {
            is_negative: true,
            ..self
        }
    }

    /// Bit 3 negative, 2 flash, 1 underline, 0 D.
    fn attributes(self) -> u8 {
        let negative = u8::from(self.is_negative);
        let flash = u8::from(self.is_flashing);
        let underline = u8::from(self.is_underlined);
        negative << 3 | flash << 2 | underline << 1 | self.ink as u8
    }
}

impl Code {
    /// A character of G0: C7 is 0.
    pub fn character(c: u8, look: Look) -> Code {
        Code {
            c: c % 128,
            attributes: look.attributes(),
        }
    }

    /// A mosaic of ten windows, a bit for each, lowest first: two side by side and five down. C7 is
    /// 1; seven of the bits are C0 to C6, and three are bits 1 to 3 of the attributes.
    pub fn mosaic(windows: u16, ink: Ink) -> Code {
        let [low, high] = [windows % 128, windows / 128 % 8].map(|bits| bits as u8);
        Code {
            c: 0x80 | low,
            attributes: high << 1 | ink as u8,
        }
    }
}
