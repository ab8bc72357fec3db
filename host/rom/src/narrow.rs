//! The demonstration ROM for pages of 80 columns, where a character shows six of its eight pixels: its
//! letters in G0 are five pixels wide. Those of the other demonstration ROM would touch or be cut.

use crate::{build, demonstration, parse, Character, Fault, Set, ROM_BYTES};

/// A text of the folder `roms/narrow`, with its name in faults.
macro_rules! text {
    ($name:literal) => {
        (
            concat!("roms/narrow/", $name),
            include_str!(concat!("../../../roms/narrow/", $name)),
        )
    };
}

/// The name and the content of each text.
pub const NARROW_TEXTS: [(&str, &str); 4] = [
    text!("g0-signs.txt"),
    text!("g0-figures.txt"),
    text!("g0-capitals.txt"),
    text!("g0-small.txt"),
];

/// The ROM with narrow letters in G0 and the other sets as the demonstration ROM has them, and the
/// characters that it was built from.
pub fn narrow() -> Result<([u8; ROM_BYTES], Vec<Character>), Fault> {
    let mut characters = Vec::new();
    for (file, text) in NARROW_TEXTS {
        characters.extend(parse(file, text)?);
    }
    let (_, wide) = demonstration()?;
    characters.extend(wide.into_iter().filter(|other| other.set != Set::G0));
    Ok((build(&characters)?, characters))
}
