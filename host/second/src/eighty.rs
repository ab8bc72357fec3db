//! The six by ten pixels of a cell of 80 columns.

use crate::address::rom_place;
use crate::code::Code;
use crate::colour::Colour;
use crate::picture::View;
use crate::{character, mosaic, LINES};

/// The pixels of one cell, line by line.
pub type Window = [[Colour; 6]; LINES];

/// "Bit 1 is DOR 2..0 where D is 0 and DOR 6..4 where it is 1; bit 0 is MAT 2..0."
pub fn colour(code: Code, on: bool, dor: u8, mat: u8) -> Colour {
    match (on, code.d()) {
        (true, 0) => Colour::numbered(dor),
        (true, _) => Colour::numbered(dor >> 4),
        (false, _) => Colour::numbered(mat),
    }
}

impl View<'_> {
    /// The cell at a position of a row.
    pub fn narrow_window(&self, row: usize, position: usize) -> Window {
        let code = self.page.code(row, position);
        let mut window = [[Colour::Black; 6]; LINES];
        for line in 0..LINES {
            for pixel in 0..6 {
                let on = self.is_on(code, line, pixel);
                window[line][pixel] = colour(code, on, self.page.dor, self.mat);
            }
        }
        window
    }

    fn is_on(&self, code: Code, line: usize, pixel: usize) -> bool {
        if code.is_mosaic() {
            return mosaic::is_on(code, line, pixel);
        }
        // G0 is the first set of the ROM.
        let value = self.rom[rom_place(0, code.c, line)];
        character::is_on(code, line, value, pixel, self.pat, self.phase)
    }
}
