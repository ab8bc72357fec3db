//! The page as a surface to write on: text, mosaics and symbols at a row and a column.

use binturamis::Part;
use rom::Set;

use super::letters::code;
use crate::access::Access;
use crate::code::{Code, Look};
use crate::colour::Colour;
use crate::writer::Writer;

const ROWS: usize = 25;
pub const COLUMNS: usize = 40;

pub struct Screen {
    writer: Writer,
}

impl Screen {
    /// Every cell is a space first: at power-up memory holds anything.
    pub fn cleared(writer: Writer) -> Screen {
        let mut screen = Screen { writer };
        for row in 0..ROWS {
            screen.band(row, Look::of(Colour::White, Colour::Black));
        }
        screen
    }

    pub fn part(&self) -> Part {
        self.writer.part()
    }

    pub fn accesses(self) -> Vec<Access> {
        self.writer.accesses()
    }

    /// Copies a whole row to another, as it stands.
    pub fn copy_row(&mut self, from: usize, to: usize) {
        self.writer.copy_row(from, to);
    }

    /// A row of spaces.
    pub fn band(&mut self, row: usize, look: Look) {
        self.text(row, 0, look, &" ".repeat(COLUMNS / look.columns()));
    }

    /// Text from a column on. Of double width each cell stands twice, side by side; of double height
    /// the text stands in this row and in the next.
    pub fn text(&mut self, row: usize, column: usize, look: Look, text: &str) {
        let codes = text.chars().map(|shown| {
            let code = code(self.part(), shown, look);
            code.expect("the demonstration ROM has the letter")
        });
        let codes: Vec<Code> = codes.collect();
        self.codes(row, column, look, &codes);
    }

    /// A mosaic of G10, which both parts have under the same bits.
    pub fn mosaic(&mut self, row: usize, column: usize, look: Look, mosaic: u8) {
        let code = Code::bichrome(Set::G10, mosaic, look);
        self.codes(row, column, look, &[code]);
    }

    /// A character with slices of its own: they go to a block, and its code to the cell.
    pub fn symbol(&mut self, row: usize, column: usize, code: Code, block: u8, slices: &[u8; 10]) {
        self.writer.slices(block, code.c, slices);
        self.writer.at(row, column);
        self.writer.cell(code);
    }

    fn codes(&mut self, row: usize, column: usize, look: Look, codes: &[Code]) {
        for row in row..row + look.rows() {
            self.writer.at(row, column);
            for code in codes {
                (0..look.columns()).for_each(|_| self.writer.cell(*code));
            }
        }
    }
}
