//! The mode: a page of 40 columns or of 80, and the lengths that go with it.

use crate::part::Part;

#[derive(Clone, Copy, Debug, PartialEq, Eq)]
pub enum Mode {
    Forty,
    Eighty,
}

impl Mode {
    /// The mode that TGS names: bits 7 and 6 both clear are 40 columns, both set are 80. One of
    /// them alone names none, and a draw gets refusal 7. Of the TS9347 "there is no 80 column page".
    pub fn of(part: Part, tgs: u8) -> Option<Mode> {
        match (part, tgs / 128, tgs / 64 % 2) {
            (_, 0, 0) => Some(Mode::Forty),
            (Part::Ef9345, 1, 1) => Some(Mode::Eighty),
            _ => None,
        }
    }

    /// The modes that a part has.
    pub const fn all_of(part: Part) -> &'static [Mode] {
        match part {
            Part::Ef9345 => &[Mode::Forty, Mode::Eighty],
            Part::Ts9347 => &[Mode::Forty],
        }
    }

    /// Bits 7 and 6 of a TGS that names the mode.
    pub const fn tgs(self) -> u8 {
        match self {
            Mode::Forty => 0x00,
            Mode::Eighty => 0xC0,
        }
    }

    pub const fn other(self) -> Mode {
        match self {
            Mode::Forty => Mode::Eighty,
            Mode::Eighty => Mode::Forty,
        }
    }

    /// The bytes of one packed line, two pixels a byte: 40 cells of eight pixels, or 80 of six.
    pub const fn line(self) -> usize {
        match self {
            Mode::Forty => 160,
            Mode::Eighty => 240,
        }
    }

    /// The bytes of one row of the picture: ten lines.
    pub const fn row(self) -> usize {
        match self {
            Mode::Forty => 1_600,
            Mode::Eighty => 2_400,
        }
    }

    /// The bytes of the picture: 25 rows.
    pub const fn picture(self) -> usize {
        match self {
            Mode::Forty => 40_000,
            Mode::Eighty => 60_000,
        }
    }
}
