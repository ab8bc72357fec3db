//! How a picture fits the width of a terminal.
//!
//! A terminal's character is about twice as high as it is wide, so half blocks keep the shape of the
//! picture. Where they are too wide, legible letters come before shape: quarter blocks show every
//! pixel in half the columns. A cell has two colours, or four in dots two pixels wide, and is eight or
//! six pixels wide, so that two by two pixels never have more than the two colours that a character
//! can show. Where these too are too wide, the picture is reduced across, and down only half as much:
//! most letters have upright strokes two pixels wide, and lines that are one pixel high.

use super::blocks::Grain;

/// The pixels a character stands for, and by how much the picture is reduced before.
#[derive(Clone, Copy, Debug, PartialEq, Eq)]
pub struct Fit {
    pub grain: Grain,
    pub across: usize,
}

impl Fit {
    /// The finest that is no wider than the terminal.
    pub fn of(width: usize, terminal: usize) -> Fit {
        let mut fit = Fit {
            grain: Grain::Half,
            across: 1,
        };
        if fit.columns(width) > terminal {
            fit.grain = Grain::Quarter;
        }
        while fit.columns(width) > terminal.max(1) {
            fit.across += 1;
        }
        fit
    }

    /// The columns that a picture of some width takes.
    pub fn columns(self, width: usize) -> usize {
        width.div_ceil(self.across).div_ceil(self.grain.across())
    }

    pub fn down(self) -> usize {
        (self.across / 2).max(1)
    }
}
