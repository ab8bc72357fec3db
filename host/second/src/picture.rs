//! The picture of a row, pixel by pixel, packed two pixels a byte.

use crate::colour::Colour;
use crate::mode::Mode;
use crate::page::Page;
use crate::{COLUMNS, LINES, POSITIONS};

/// All that the picture is drawn from.
#[derive(Clone, Copy)]
pub struct View<'a> {
    pub page: Page<'a>,
    pub rom: &'a [u8],
    pub mat: u8,
    pub pat: u8,
    pub phase: u8,
}

impl View<'_> {
    /// The 1,600 bytes of a row, or the 2,400 of one of 80 columns.
    pub fn row(&self, row: usize) -> Vec<u8> {
        match self.page.mode {
            Mode::Forty => row_of((0..COLUMNS).map(|column| self.window(row, column))),
            Mode::Eighty => {
                row_of((0..POSITIONS).map(|position| self.narrow_window(row, position)))
            }
        }
    }
}

/// The bytes of a row whose windows are these from the left: ten lines, each 40 times eight pixels or 80
/// times six.
pub(crate) fn row_of<const WIDTH: usize>(
    windows: impl Iterator<Item = [[Colour; WIDTH]; LINES]>,
) -> Vec<u8> {
    let mut lines = vec![Vec::new(); LINES];
    for window in windows {
        for line in 0..LINES {
            lines[line].extend(window[line]);
        }
    }
    lines.iter().flat_map(|line| packed(line)).collect()
}

/// "Two pixels a byte, the left pixel in the low four bits."
fn packed(line: &[Colour]) -> Vec<u8> {
    let pairs = line.chunks(2);
    pairs
        .map(|pair| pair[0].number() + 16 * pair[1].number())
        .collect()
}

/// The four bits of one pixel of a whole picture.
pub fn pixel(mode: Mode, picture: &[u8], line: usize, across: usize) -> u8 {
    let byte = picture[mode.line() * line + across / 2];
    match across % 2 {
        0 => byte & 15,
        _ => byte >> 4,
    }
}
