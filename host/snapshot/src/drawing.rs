//! A picture in colours, drawn as text, and its cells.
//!
//! A letter is a dot of two pixels by one line: `.` black, `r` red, `g` green, `y` yellow, `b` blue,
//! `m` magenta, `c` cyan, `w` white. A cell has four dots by ten lines.

use crate::colour::Colour;
use crate::grid::grid;

pub const DOTS: usize = 4;
pub const LINES: usize = 10;

/// A cell of a drawing.
#[derive(Clone, Copy, Debug, PartialEq, Eq)]
pub struct Cell {
    /// Where it stands in the drawing, counted in cells.
    pub row: usize,
    pub column: usize,
    pub lines: [[Colour; DOTS]; LINES],
}

impl Cell {
    pub fn dots(&self) -> impl Iterator<Item = Colour> + '_ {
        self.lines.iter().flatten().copied()
    }
}

/// The cells of a drawing from left to right and from top to bottom, those that are black all over
/// left out. What is wrong with a drawing is told in words.
pub fn cells(drawing: &str) -> Result<Vec<Cell>, String> {
    let lines = grid(drawing, colour, (DOTS, LINES))?;
    let mut cells = Vec::new();
    for (row, part) in lines.chunks(LINES).enumerate() {
        for column in 0..part[0].len() / DOTS {
            cells.push(cell(part, row, column));
        }
    }
    cells.retain(|cell| cell.dots().any(|colour| colour != Colour::Black));
    Ok(cells)
}

fn colour(letter: char) -> Result<Colour, String> {
    match ".rgybmcw".find(letter) {
        Some(number) => Ok(Colour::ALL[number]),
        None => Err(format!("`{letter}` is no colour of a drawing")),
    }
}

/// One cell of the ten lines of a row of cells.
fn cell(lines: &[Vec<Colour>], row: usize, column: usize) -> Cell {
    let dot = |line: usize, dot: usize| lines[line][DOTS * column + dot];
    Cell {
        row,
        column,
        lines: std::array::from_fn(|line| std::array::from_fn(|at| dot(line, at))),
    }
}
