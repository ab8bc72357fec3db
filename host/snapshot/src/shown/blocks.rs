//! Pixels as block characters, a line of text for two lines of pixels.

use std::fmt::Write;

use crate::colour::Colour;
use crate::raster::Raster;

/// How many pixels a character stands for: one by two or two by two.
#[derive(Clone, Copy, Debug, PartialEq, Eq)]
pub enum Grain {
    Half,
    Quarter,
}

impl Grain {
    /// The pixels of a character side by side.
    pub fn across(self) -> usize {
        match self {
            Grain::Half => 1,
            Grain::Quarter => 2,
        }
    }
}

/// A block character by which of its quarters are foreground: 1 upper left, 2 upper right, 4 lower
/// left, 8 lower right.
const BLOCKS: [char; 16] = [
    ' ', '▘', '▝', '▀', '▖', '▌', '▞', '▛', '▗', '▚', '▐', '▜', '▄', '▙', '▟', '█',
];

/// The four quarters of a character, in the order of their bits; with half blocks the two of a line
/// are the same pixel.
fn quarters(raster: &Raster, grain: Grain, column: usize, line: usize) -> [Colour; 4] {
    let left = grain.across() * column;
    let right = left + grain.across() - 1;
    let places = [(left, 0), (right, 0), (left, 1), (right, 1)];
    places.map(|(column, down)| raster.at_or_black(column, 2 * line + down))
}

fn block(quarters: [Colour; 4], is_foreground: impl Fn(Colour) -> bool) -> char {
    let bits = (0..4).filter(|&quarter| is_foreground(quarters[quarter]));
    BLOCKS[bits.map(|quarter| 1 << quarter).sum::<usize>()]
}

/// The size of the text in characters.
fn size(raster: &Raster, grain: Grain) -> (usize, usize) {
    let columns = raster.width.div_ceil(grain.across());
    (columns, raster.height.div_ceil(2))
}

/// Without escape codes: what is not black is the block.
pub fn plain(raster: &Raster, grain: Grain) -> String {
    let (columns, lines) = size(raster, grain);
    let mut text = String::new();
    for line in 0..lines {
        let mut shown = String::new();
        for column in 0..columns {
            let quarters = quarters(raster, grain, column, line);
            shown.push(block(quarters, |colour| colour != Colour::Black));
        }
        text.push_str(shown.trim_end());
        text.push('\n');
    }
    text
}

/// With escape codes for colours, which are set only where they change and end with the line.
pub fn coloured(raster: &Raster, grain: Grain) -> String {
    let (columns, lines) = size(raster, grain);
    let mut text = String::new();
    for line in 0..lines {
        let mut ink = Ink::default();
        for column in 0..columns {
            ink.put(quarters(raster, grain, column, line), &mut text);
        }
        text.push_str("\x1b[0m\n");
    }
    text
}

/// The colours that the terminal writes with.
#[derive(Default)]
struct Ink {
    foreground: Option<Colour>,
    background: Option<Colour>,
}

impl Ink {
    /// The upper left quarter is foreground, and with it what has its colour.
    fn put(&mut self, quarters: [Colour; 4], text: &mut String) {
        let foreground = quarters[0];
        match other(quarters) {
            None => {
                self.set_background(foreground, text);
                text.push(' ');
            }
            Some(background) => {
                self.set_foreground(foreground, text);
                self.set_background(background, text);
                text.push(block(quarters, |colour| colour == foreground));
            }
        }
    }

    fn set_foreground(&mut self, colour: Colour, text: &mut String) {
        if self.foreground != Some(colour) {
            escape(38, colour, text);
        }
        self.foreground = Some(colour);
    }

    fn set_background(&mut self, colour: Colour, text: &mut String) {
        if self.background != Some(colour) {
            escape(48, colour, text);
        }
        self.background = Some(colour);
    }
}

/// The colour that stands beside that of the upper left quarter: the commonest, if there are more.
fn other(quarters: [Colour; 4]) -> Option<Colour> {
    let mut others = quarters.to_vec();
    others.retain(|colour| *colour != quarters[0]);
    let count = |colour: &Colour| others.iter().filter(|other| *other == colour).count();
    others.iter().copied().max_by_key(count)
}

/// Colours 16 to 231 of a terminal of 256 are a cube with six steps of red, green and blue. Its
/// corners are the eight colours whatever the terminal's own eight look like.
fn escape(kind: u8, colour: Colour, text: &mut String) {
    let [red, green, blue] = colour.red_green_blue().map(|part| part / 51);
    let number = 16 + 36 * red + 6 * green + blue;
    // Writing to a string does not fail.
    let _ = write!(text, "\x1b[{kind};5;{number}m");
}
