//! The page as a surface to write on: text with rules in it, and drawings of mosaics.

use super::rules::rule;
use crate::access::Access;
use crate::eighty::code::{Code, Ink, Look};
use crate::eighty::mosaics::mosaics;
use crate::eighty::writer::Writer;
use crate::registers::Registers;

const ROWS: usize = 25;
pub const COLUMNS: usize = 80;

/// The ink of values, and that of names, headings and rules.
pub const VALUES: Ink = Ink::Low;
pub const NAMES: Ink = Ink::High;

pub struct Screen {
    writer: Writer,
}

impl Screen {
    /// Every cell is a space first: at power-up memory holds anything.
    pub fn cleared(registers: Registers) -> Screen {
        let writer = Writer::of(registers);
        let mut screen = Screen { writer };
        for row in 0..ROWS {
            screen.band(row, Look::of(VALUES));
        }
        screen
    }

    pub fn accesses(self) -> Vec<Access> {
        self.writer.accesses()
    }

    /// A row of spaces.
    pub fn band(&mut self, row: usize, look: Look) {
        self.text(row, 0, look, &" ".repeat(COLUMNS));
    }

    /// Text from a position on. The rules in it are mosaics, which have no look but their ink.
    pub fn text(&mut self, row: usize, position: usize, look: Look, text: &str) {
        self.writer.at(row, position);
        for letter in text.chars() {
            let code = match rule(letter) {
                Some(windows) => Code::mosaic(windows, NAMES),
                None => Code::character(ascii(letter), look),
            };
            self.writer.cell(code);
        }
    }

    /// A drawing of mosaics, with its upper left cell at a row and a position.
    pub fn drawing(&mut self, row: usize, position: usize, ink: Ink, drawing: &str) {
        let cells = mosaics(drawing).expect("the drawing is right");
        for (row, line) in (row..).zip(cells) {
            self.writer.at(row, position);
            for windows in line {
                self.writer.cell(Code::mosaic(windows, ink));
            }
        }
    }
}

/// G0 of the demonstration ROM is ASCII.
fn ascii(letter: char) -> u8 {
    assert!(letter.is_ascii(), "G0 has no {letter}");
    letter as u8
}
