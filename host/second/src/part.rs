//! The two parts: the EF9345 and the later TS9347.

#[derive(Clone, Copy, Debug, PartialEq, Eq)]
pub enum Part {
    Ef9345,
    Ts9347,
}

impl Part {
    /// The part that a number names at power-up, or nothing for "14, an unknown part".
    pub fn numbered(number: u8) -> Option<Part> {
        match number {
            0 => Some(Part::Ef9345),
            1 => Some(Part::Ts9347),
            _ => None,
        }
    }

    pub const fn number(self) -> u8 {
        match self {
            Part::Ef9345 => 0,
            Part::Ts9347 => 1,
        }
    }

    /// The blocks that a board with this part may have: "2, 8 or 16 blocks", and the later part's
    /// 32,768 bytes.
    pub const fn boards(self) -> &'static [usize] {
        match self {
            Part::Ef9345 => &[2, 8, 16],
            Part::Ts9347 => &[32],
        }
    }

    /// The blocks that its pointers can name: Z is 0 to 15, or "Z to 31".
    pub const fn named_blocks(self) -> usize {
        match self {
            Part::Ef9345 => 16,
            Part::Ts9347 => 32,
        }
    }

    /// The bytes of its character ROM: five sets of 128 characters of ten slices, or "three sets of
    /// 128".
    pub const fn rom(self) -> usize {
        match self {
            Part::Ef9345 => 6_400,
            Part::Ts9347 => 3_840,
        }
    }
}
