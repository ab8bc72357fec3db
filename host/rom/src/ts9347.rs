//! The ROM of the TS9347, and a demonstration ROM for it: of the characters that the demonstration ROM of
//! the EF9345 has drawn, those that go into the three sets of this part.

use crate::{demonstration as of_ef9345, Character, Fault, CODES, SLICES};

/// Three sets of 128 characters of ten slices.
pub const ROM_BYTES: usize = 3_840;

/// A set of its ROM. The order of the cases is the order of the sets in its bytes.
#[derive(Clone, Copy, Debug, PartialEq, Eq, PartialOrd, Ord, Hash)]
pub enum Set {
    G10,
    Goe,
    G0,
}

impl Set {
    pub const ALL: [Set; 3] = [Set::G10, Set::Goe, Set::G0];
}

/// The place of a character's first slice; its others follow.
pub fn place(set: Set, code: u8) -> usize {
    CODES * SLICES * set as usize + SLICES * (usize::from(code) % CODES)
}

/// The letters with accents that figure 26 of its data sheet has in G0 below the space, where our copy can
/// be read and the letter is drawn.
pub const ACCENTED: [(u8, &str); 5] = [
    (0x07, "ö"),
    (0x08, "ü"),
    (0x15, "ç"),
    (0x19, "è"),
    (0x1B, "é"),
];

/// A character that was drawn for the EF9345, where this part has it.
#[derive(Clone, Debug, PartialEq, Eq)]
pub struct Placed {
    pub set: Set,
    /// From 00 to 7F hex.
    pub code: u8,
    pub drawn: Character,
}

/// The demonstration ROM and the characters in it. One that is not among them is blank.
pub fn demonstration() -> Result<([u8; ROM_BYTES], Vec<Placed>), Fault> {
    let (_, drawn) = of_ef9345()?;
    let characters: Vec<Placed> = drawn.into_iter().filter_map(placed).collect();
    let mut rom = [0; ROM_BYTES];
    for character in &characters {
        let place = place(character.set, character.code);
        rom[place..place + SLICES].copy_from_slice(&character.drawn.slices);
    }
    Ok((rom, characters))
}

fn placed(drawn: Character) -> Option<Placed> {
    let (set, code) = set_and_code(&drawn)?;
    Some(Placed { set, code, drawn })
}

/// Where this part has a character, if it has it. The lines of G11 stand in for the 32 characters of GOE,
/// whose cells have the same bits of B.
fn set_and_code(drawn: &Character) -> Option<(Set, u8)> {
    let code = drawn.code;
    match drawn.set {
        crate::Set::G0 => has_ascii(code).then_some((Set::G0, code)),
        crate::Set::G10 => Some((Set::G10, code)),
        crate::Set::G11 => Some((Set::Goe, code)),
        crate::Set::G20 | crate::Set::G21 => {
            let mut accented = ACCENTED.into_iter();
            let (code, _) = accented.find(|(_, letter)| *letter == drawn.name)?;
            Some((Set::G0, code))
        }
    }
}

/// Whether G0 has the character of ASCII under a code: figure 26 has other signs at 5E and 60, and our copy of
/// it cannot be read at 5F and from 7B on.
pub fn has_ascii(code: u8) -> bool {
    matches!(code, 0x20..=0x5D | 0x61..=0x7A)
}
