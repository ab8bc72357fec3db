//! The pixels of a bichrome cell: which slice a line shows, which bit a pixel shows, and its
//! colour.

use crate::cell::Cell;
use crate::colour::Colour;
use crate::LINES;

/// The slices of the twenty lines of a double height character: "an alphanumeric gives slice 0
/// three times, 1 to 8 twice, 9 once; others give each slice twice".
pub fn slices_of_twenty_lines(alphanumeric: bool) -> Vec<usize> {
    let mut slices = Vec::new();
    for slice in 0..LINES {
        let times = match (alphanumeric, slice) {
            (true, 0) => 3,
            (true, 9) => 1,
            _ => 2,
        };
        for _ in 0..times {
            slices.push(slice);
        }
    }
    slices
}

/// The slice that each of the ten lines of a cell shows.
pub fn slices_of_lines(cell: Cell, lower: bool) -> Vec<usize> {
    if !cell.is_double_height() {
        return (0..LINES).collect();
    }
    let twenty = slices_of_twenty_lines(cell.is_alphanumeric());
    if lower {
        twenty[10..].to_vec()
    } else {
        twenty[..10].to_vec()
    }
}

/// The slice bit of a pixel: "Slice bit 0 is the leftmost pixel", and "Width doubles each pixel:
/// the left half shows slice bits 0 to 3, the right half 4 to 7".
pub fn bit_of_pixel(cell: Cell, right: bool, pixel: usize) -> usize {
    if !cell.is_double_width() {
        pixel
    } else if right {
        4 + pixel / 2
    } else {
        pixel / 2
    }
}

/// The colour of one pixel from its slice, in the page's order. PAT 3 lets conceal act, PAT 6
/// flash.
pub fn colour(cell: Cell, slice: usize, value: u8, bit: usize, pat: u8, phase: u8) -> Colour {
    let mut on = (value >> bit) & 1 == 1;
    if cell.is_underlined() && slice == 9 {
        on = true;
    }
    if cell.is_concealed() && (pat >> 3) & 1 == 1 {
        on = false;
    }
    if cell.is_flashing() && (pat >> 6) & 1 == 1 && phase != cell.negative() {
        on = false;
    }
    if cell.negative() == 1 {
        on = !on;
    }
    if on {
        Colour::numbered(cell.foreground())
    } else {
        Colour::numbered(cell.background())
    }
}
