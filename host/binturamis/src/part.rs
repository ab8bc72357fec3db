//! The two parts, by their numbers.

use crate::refusal::Refusal;

/// Which display processor it is whose place is taken. It is chosen at power-up and stays.
///
/// ```
/// use binturamis::{Part, Refusal};
///
/// assert_eq!(Part::from_number(1), Ok(Part::Ts9347));
/// assert_eq!(Part::Ts9347.number(), 1);
/// assert_eq!(Part::from_number(2), Err(Refusal::UnknownPart));
/// ```
#[derive(Clone, Copy, Debug, PartialEq, Eq, PartialOrd, Ord, Hash)]
#[repr(u8)]
pub enum Part {
    Ef9345 = 0,
    /// The later part: 32 blocks, three ROM sets, every cell bichrome, no page of 80 columns and so no
    /// KRL, and no moves.
    Ts9347 = 1,
}

impl Part {
    /// Every part, by rising number.
    pub const ALL: [Part; 2] = [Part::Ef9345, Part::Ts9347];

    /// The part of a number, or refusal 14 where there is none.
    pub fn from_number(number: u8) -> Result<Part, Refusal> {
        let mut all = Part::ALL.into_iter();
        all.find(|part| part.number() == number)
            .ok_or(Refusal::UnknownPart)
    }

    /// The number by which power-up and the state name it: 0 or 1.
    pub fn number(self) -> u8 {
        self as u8
    }
}
