//! The three code bytes of a cell, made from its character and its look.

use rom::{ts9347, Set};

use crate::colour::Colour;

/// The code of a cell: the bytes that KRF stores from R1, R2 and R3.
#[derive(Clone, Copy, Debug, PartialEq, Eq)]
pub struct Code {
    pub c: u8,
    pub b: u8,
    pub a: u8,
}

/// The attributes of a bichrome cell.
#[derive(Clone, Copy, Debug, PartialEq, Eq)]
pub struct Look {
    foreground: Colour,
    background: Colour,
    is_flashing: bool,
    is_underlined: bool,
    is_wide: bool,
    is_tall: bool,
}

impl Look {
    pub const fn of(foreground: Colour, background: Colour) -> Look {
        Look {
            foreground,
            background,
            is_flashing: false,
            is_underlined: false,
            is_wide: false,
            is_tall: false,
        }
    }

    pub const fn flashing(self) -> Look {
        Look {
            is_flashing: true,
            ..self
        }
    }

    /// Only letters, those of G0, G20 and G21, can be underlined.
    pub const fn underlined(self) -> Look {
        Look {
            is_underlined: true,
            ..self
        }
    }

    /// Double width. The cell has to stand in two columns, side by side.
    pub const fn wide(self) -> Look {
        Look {
            is_wide: true,
            ..self
        }
    }

    /// Double height. The cell has to stand in two rows, one above the other.
    pub const fn tall(self) -> Look {
        Look {
            is_tall: true,
            ..self
        }
    }

    /// The cells that a character of this look takes side by side.
    pub fn columns(self) -> usize {
        if self.is_wide {
            2
        } else {
            1
        }
    }

    /// The cells that a character of this look takes one above the other.
    pub fn rows(self) -> usize {
        if self.is_tall {
            2
        } else {
            1
        }
    }

    /// A7 negative, A6..4 foreground, A3 flash, A2..0 background.
    fn a(self) -> u8 {
        let flash = u8::from(self.is_flashing);
        self.foreground.number() << 4 | flash << 3 | self.background.number()
    }
}

impl Code {
    /// A bichrome cell of an EF9345. B7..4 name the set, B3 is double width, B1 double height.
    pub fn bichrome(set: Set, c: u8, look: Look) -> Code {
        let set_bits = set_bits(set, look.is_underlined);
        Code::of_bits(set_bits << 4 | u8::from(look.is_wide) << 3, c, look)
    }

    /// The same of a TS9347, whose sets have bits of their own.
    pub fn of_ts9347(set: ts9347::Set, c: u8, look: Look) -> Code {
        let set_bits = ts9347_set_bits(set, look.is_underlined);
        Code::of_bits(set_bits << 4 | u8::from(look.is_wide) << 3, c, look)
    }

    /// A cell of a TS9347's user set Q, which is bichrome: B7 and B6 are set, and B5..3 choose the block of
    /// its slices. So it has no bit for double width, and it is not underlined.
    pub fn of_user_set_q(q: u8, c: u8, look: Look) -> Code {
        Code::of_bits(0xC0 | (q % 8) << 3, c, look)
    }

    /// B with its bits 7 to 3 and double height, and A.
    fn of_bits(bits: u8, c: u8, look: Look) -> Code {
        Code {
            c,
            b: bits | u8::from(look.is_tall) << 1,
            a: look.a(),
        }
    }

    /// A quadrichrome cell of an EF9345, of high resolution: B7 and B6 are set, B5..3 choose the block of its
    /// slices, and A has a bit set for each colour of the palette.
    pub fn quadrichrome(block: u8, c: u8, palette: u8) -> Code {
        Code {
            c,
            b: 0xC0 | (block % 8) << 3,
            a: palette,
        }
    }
}

/// B7..4 of a TS9347's set. The lowest is the underline of G0.
fn ts9347_set_bits(set: ts9347::Set, is_underlined: bool) -> u8 {
    match set {
        ts9347::Set::G0 => u8::from(is_underlined),
        ts9347::Set::G10 => 2,
        ts9347::Set::Goe => 3,
    }
}

/// B7..4 of an EF9345's set. The lowest is the underline of an alphanumeric set.
fn set_bits(set: Set, is_underlined: bool) -> u8 {
    let underline = u8::from(is_underlined);
    match set {
        Set::G0 => underline,
        Set::G10 => 2,
        Set::G11 => 3,
        Set::G20 => 4 | underline,
        Set::G21 => 6 | underline,
    }
}
