//! A cell: its three bytes, its kind, its set and its attributes.

use crate::part::Part;
use crate::set::Set;

/// The three bytes of a code, and the part that shows it. Two cells of a page are the same exactly when
/// the raw bytes are: C7 and B0 count.
#[derive(Clone, Copy, Debug, PartialEq, Eq)]
pub struct Cell {
    pub part: Part,
    pub c: u8,
    pub b: u8,
    pub a: u8,
}

/// Where the slices of a cell are: the ROM set by its order, or a block of private memory.
#[derive(Clone, Copy, Debug, PartialEq, Eq)]
pub enum Source {
    Rom(usize),
    Block(usize),
}

fn bit(byte: u8, number: u8) -> bool {
    (byte >> number) & 1 == 1
}

impl Cell {
    /// "Quadrichrome (both set)": B bits 7 and 6. Of the TS9347 "all cells are bichrome".
    pub fn is_quadrichrome(self) -> bool {
        self.set().is_none()
    }

    /// The set of a bichrome cell; nothing for a quadrichrome cell.
    pub fn set(self) -> Option<Set> {
        match self.part {
            Part::Ef9345 => Set::of_ef9345(self.b),
            Part::Ts9347 => Some(Set::of_ts9347(self.b)),
        }
    }

    pub fn is_alphanumeric(self) -> bool {
        self.set().is_some_and(Set::is_alphanumeric)
    }

    /// Where the slices come from. Bits 3 to 0 of DOR name the block of G'0, bits 6 to 4 the pair
    /// of blocks of G'10 and G'11, and bit 7 the eight blocks of the quadrichrome sets, or of the sets Q.
    pub fn source(self, dor: u8) -> Source {
        let dor = usize::from(dor);
        match self.set() {
            Some(Set::UserG0) => Source::Block(dor % 16),
            Some(Set::UserG10) => Source::Block(2 * (dor / 16 % 8)),
            Some(Set::UserG11) => Source::Block(2 * (dor / 16 % 8) + 1),
            Some(Set::Q) | None => Source::Block(8 * (dor / 128) + usize::from(self.b) / 8 % 8),
            Some(set) => Source::Rom(rom_order(self.part, set)),
        }
    }

    pub fn is_underlined(self) -> bool {
        self.is_alphanumeric() && bit(self.b, 4)
    }

    /// A set Q is "never double width": B3 is a part of its number.
    pub fn is_double_width(self) -> bool {
        !self.is_quadrichrome() && self.set() != Some(Set::Q) && bit(self.b, 3)
    }

    pub fn is_concealed(self) -> bool {
        !self.is_quadrichrome() && bit(self.b, 2)
    }

    /// A quadrichrome cell's B1 is its resolution, and no double height.
    pub fn is_double_height(self) -> bool {
        !self.is_quadrichrome() && bit(self.b, 1)
    }

    /// The negative bit as a number, since the phase is compared with it.
    pub fn negative(self) -> u8 {
        self.a >> 7
    }

    pub fn foreground(self) -> u8 {
        self.a >> 4 & 7
    }

    pub fn is_flashing(self) -> bool {
        !self.is_quadrichrome() && bit(self.a, 3)
    }

    pub fn background(self) -> u8 {
        self.a & 7
    }

    pub fn is_low_resolution(self) -> bool {
        self.is_quadrichrome() && bit(self.b, 1)
    }

    /// K of a quadrichrome cell as a number.
    pub fn k(self) -> usize {
        usize::from(self.b >> 2 & 1)
    }
}

/// The number of a set in the ROM: "sets in the order G0, G10, G11, G20, G21", and of the TS9347 "in the
/// order G10, GOE, G0".
fn rom_order(part: Part, set: Set) -> usize {
    let order: &[Set] = match part {
        Part::Ef9345 => &[Set::G0, Set::G10, Set::G11, Set::G20, Set::G21],
        Part::Ts9347 => &[Set::G10, Set::Goe, Set::G0],
    };
    let number = order.iter().position(|other| *other == set);
    number.unwrap_or_else(|| panic!("the ROM of the {part:?} has no set {set:?}"))
}
