//! The eight by ten pixels of a cell of 40 columns.

use crate::address::{rom_place, slice_address};
use crate::cell::{Cell, Source};
use crate::colour::Colour;
use crate::half::{shows_lower, shows_right};
use crate::picture::View;
use crate::{bichrome, quadrichrome, LINES};

/// The pixels of one cell, line by line.
pub type Window = [[Colour; 8]; LINES];

impl View<'_> {
    /// The value of a slice.
    pub fn slice(&self, cell: Cell, slice: usize) -> u8 {
        match cell.source(self.page.dor) {
            Source::Rom(set) => self.rom[rom_place(set, cell.c, slice)],
            Source::Block(block) => {
                let address = slice_address(cell.c, slice, block, self.page.board.blocks);
                address.drawn(self.page.memory)
            }
        }
    }

    pub fn window(&self, row: usize, column: usize) -> Window {
        if self.page.cell(row, column).is_quadrichrome() {
            self.quadrichrome_window(row, column)
        } else {
            self.bichrome_window(row, column)
        }
    }

    fn bichrome_window(&self, row: usize, column: usize) -> Window {
        let cell = self.page.cell(row, column);
        let slices = bichrome::slices_of_lines(cell, shows_lower(&self.page, row, column));
        let right = shows_right(&self.page, row, column);
        let bits = [0, 1, 2, 3, 4, 5, 6, 7].map(|pixel| bichrome::bit_of_pixel(cell, right, pixel));
        self.two_colours(cell, &slices, bits)
    }

    /// The pixels of a bichrome cell, by the slice of each line and the slice's bit of each pixel.
    pub(crate) fn two_colours(&self, cell: Cell, slices: &[usize], bits: [usize; 8]) -> Window {
        let mut window = [[Colour::Black; 8]; LINES];
        for line in 0..LINES {
            let slice = slices[line];
            let value = self.slice(cell, slice);
            for pixel in 0..8 {
                let bit = bits[pixel];
                window[line][pixel] =
                    bichrome::colour(cell, slice, value, bit, self.pat, self.phase);
            }
        }
        window
    }

    fn quadrichrome_window(&self, row: usize, column: usize) -> Window {
        let cell = self.page.cell(row, column);
        let mut window = [[Colour::Black; 8]; LINES];
        for line in 0..LINES {
            let value = self.slice(cell, quadrichrome::slice_of_line(cell, line));
            for pixel in 0..8 {
                window[line][pixel] = quadrichrome::colour(cell, value, pixel);
            }
        }
        window
    }
}
