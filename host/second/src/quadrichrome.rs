//! The pixels of a quadrichrome cell: which slice a line shows and the colour of a pixel.

use crate::cell::Cell;
use crate::colour::{colour_of_rank, Colour};

/// "Line n uses slice n, or in low resolution 5K + n div 2."
pub fn slice_of_line(cell: Cell, line: usize) -> usize {
    if cell.is_low_resolution() {
        5 * cell.k() + line / 2
    } else {
        line
    }
}

/// "Each two bits of the slice, lowest first, are the rank of two pixels."
pub fn rank_of_pixel(value: u8, pixel: usize) -> usize {
    let pair = pixel / 2;
    usize::from(value >> (2 * pair) & 3)
}

pub fn colour(cell: Cell, value: u8, pixel: usize) -> Colour {
    colour_of_rank(cell.a, rank_of_pixel(value, pixel))
}
