//! The bars: the throughput with its scale, and what is left in hopper and tank.

use std::ops::Range;

use super::screen::Screen;
use crate::code::Look;
use crate::colour::Colour::{self, Black, Blue, Cyan, Green, Red, White};

/// The blocks of a mosaic: those of its left half, and those of its right half.
const LEFT: u8 = 0b01_01_01;
const RIGHT: u8 = 0b10_10_10;
/// All blocks, and all but the lower two.
const WHOLE: u8 = 0b11_11_11;
const UPPER: u8 = 0b00_11_11;
/// A contiguous mosaic has 40 hex more than the separated one of the same blocks.
const CONTIGUOUS: u8 = 0x40;

/// A bar on the screen. It is counted in half cells from the left of its column.
struct Bar {
    row: usize,
    column: usize,
    blocks: u8,
    filled: Range<usize>,
    empty: Range<usize>,
    colour: Colour,
}

pub fn bars(screen: &mut Screen) {
    throughput(screen);
    level(screen, 16, "Hopper", 62, Green);
    level(screen, 17, "Tank", 9, Red);
}

/// 32 cells for 16 tonnes an hour, so that half a cell is a quarter of a tonne. The scale has its
/// ticks in the middle of cells, so the bar begins there too.
fn throughput(screen: &mut Screen) {
    let quiet = Look::of(Cyan, Black);
    screen.text(12, 2, quiet, "Throughput");
    screen.text(12, 27, Look::of(White, Black), "11.8 t/h");
    Bar {
        row: 13,
        column: 3,
        blocks: WHOLE,
        filled: 1..48,
        empty: 48..65,
        colour: Green,
    }
    .show(screen);
    screen.text(14, 3, quiet, "├───┬───┬───┬───┬───┬───┬───┬───┤");
    screen.text(15, 3, quiet, "0       4       8       12");
    screen.text(15, 34, quiet, "16");
}

/// A name, a bar of 20 cells and the percentage.
fn level(screen: &mut Screen, row: usize, name: &str, percent: usize, colour: Colour) {
    let halves = (40 * percent + 50) / 100;
    screen.text(row, 2, Look::of(Cyan, Black), name);
    Bar {
        row,
        column: 10,
        blocks: UPPER,
        filled: 0..halves,
        empty: halves..40,
        colour,
    }
    .show(screen);
    screen.text(row, 31, Look::of(White, Black), &format!("{percent:>3} %"));
}

impl Bar {
    /// A cell has one foreground: where the filled part ends in its middle, the rest stays black.
    fn show(&self, screen: &mut Screen) {
        for cell in 0..self.empty.end.div_ceil(2) {
            let (filled, empty) = (blocks(&self.filled, cell), blocks(&self.empty, cell));
            let (colour, mosaic) = match filled {
                0 => (Blue, empty & self.blocks),
                filled => (self.colour, CONTIGUOUS + (filled & self.blocks)),
            };
            let look = Look::of(colour, Black);
            screen.mosaic(self.row, self.column + cell, look, mosaic);
        }
    }
}

/// The blocks of a cell whose half is in a range of halves.
fn blocks(halves: &Range<usize>, cell: usize) -> u8 {
    let of = |half: usize, blocks: u8| if halves.contains(&half) { blocks } else { 0 };
    of(2 * cell, LEFT) | of(2 * cell + 1, RIGHT)
}
