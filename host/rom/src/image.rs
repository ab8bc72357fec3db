//! The bytes of an EF9345's ROM with drawn characters in their places.

use std::collections::HashMap;

use crate::{Character, Fault, Set, What, CODES, SLICES};

/// Five sets of 128 characters of ten slices.
pub const ROM_BYTES: usize = 6_400;

/// The place of a character's first slice; its others follow.
pub fn place(set: Set, code: u8) -> usize {
    CODES * SLICES * set as usize + SLICES * (usize::from(code) % CODES)
}

/// The ROM of some characters. A character that is not among them is blank, and one that is there
/// twice is a fault.
pub fn build(characters: &[Character]) -> Result<[u8; ROM_BYTES], Fault> {
    let mut rom = [0; ROM_BYTES];
    let mut drawn: HashMap<usize, &Character> = HashMap::new();
    for character in characters {
        let place = place(character.set, character.code);
        if let Some(before) = drawn.insert(place, character) {
            return Err(Fault {
                file: character.file.clone(),
                line: character.line,
                what: What::DrawnTwice(before.file.clone(), before.line),
            });
        }
        rom[place..place + SLICES].copy_from_slice(&character.slices);
    }
    Ok(rom)
}
