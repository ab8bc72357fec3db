//! The demonstration ROM: the texts of the folder `roms` itself, and what they build.

use crate::{build, parse, Character, Fault, ROM_BYTES};

/// A text of the folder `roms`, with its name in faults.
macro_rules! text {
    ($name:literal) => {
        (
            concat!("roms/", $name),
            include_str!(concat!("../../../roms/", $name)),
        )
    };
}

/// The name and the content of each text.
pub const TEXTS: [(&str, &str); 16] = [
    text!("g0-signs.txt"),
    text!("g0-figures.txt"),
    text!("g0-capitals.txt"),
    text!("g0-small.txt"),
    text!("g10-separated.txt"),
    text!("g10-contiguous.txt"),
    text!("g11-single.txt"),
    text!("g11-double.txt"),
    text!("g20-acute.txt"),
    text!("g20-grave.txt"),
    text!("g20-circumflex.txt"),
    text!("g20-diaeresis.txt"),
    text!("g21-tilde.txt"),
    text!("g21-ring.txt"),
    text!("g21-cedilla.txt"),
    text!("g21-caron.txt"),
];

/// The demonstration ROM and the characters that it was built from.
pub fn demonstration() -> Result<([u8; ROM_BYTES], Vec<Character>), Fault> {
    let mut characters = Vec::new();
    for (file, text) in TEXTS {
        characters.extend(parse(file, text)?);
    }
    Ok((build(&characters)?, characters))
}
