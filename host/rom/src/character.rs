//! A character as it was drawn, with the place of its drawing.

use crate::Set;

/// The pixels of a slice.
pub const COLUMNS: usize = 8;
/// The slices of a character.
pub const SLICES: usize = 10;

/// A drawn character.
#[derive(Clone, Debug, PartialEq, Eq)]
pub struct Character {
    pub set: Set,
    /// From 00 to 7F hex.
    pub code: u8,
    /// What its heading says that it shows.
    pub name: String,
    /// Bit 0 of a slice is the leftmost pixel.
    pub slices: [u8; SLICES],
    /// The text that it was drawn in.
    pub file: String,
    /// The line of its heading, counted from 1.
    pub line: usize,
}
