//! Builds the 6,400 bytes of an EF9345's character ROM from characters drawn as text, and holds the
//! demonstration ROMs, which are drawn in the folder `roms`: one for pages of 40 columns, one with narrow
//! letters for pages of 80, and one for the TS9347.
//!
//! A character is a heading line, which names its set, its code and what it shows, and ten lines of
//! eight marks, `#` for foreground and `.` for background. Empty lines and lines that begin with
//! `;` stand between characters.

mod character;
mod demonstration;
mod fault;
mod image;
mod narrow;
mod parse;
mod set;
pub mod ts9347;

pub use character::{Character, COLUMNS, SLICES};
pub use demonstration::{demonstration, TEXTS};
pub use fault::{Fault, What};
pub use image::{build, place, ROM_BYTES};
pub use narrow::{narrow, NARROW_TEXTS};
pub use parse::parse;
pub use set::{Set, CODES};
