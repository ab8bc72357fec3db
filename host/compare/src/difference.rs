//! The first difference of two pictures, in words.

use second::half::{shows_lower, shows_right};
use second::Mode;

use crate::page::Page;

/// Fails with the first byte in which what was drawn is not what was wanted.
pub fn assert_same(page: &Page, drawn: &[u8], wanted: &[u8]) {
    let length = page.mode.picture();
    assert_eq!((drawn.len(), wanted.len()), (length, length));
    for at in 0..length {
        let (drawn, wanted) = (drawn[at], wanted[at]);
        assert!(
            drawn == wanted,
            "seed {} ({}), {}: drawn {drawn:02X}, wanted {wanted:02X}; {}",
            page.seed,
            page.filling,
            told(page, at),
            registers(page),
        );
    }
}

fn registers(page: &Page) -> String {
    format!(
        "{:?}, TGS {:02X}, MAT {:02X}, PAT {:02X}, DOR {:02X}, ROR {:02X}, phase {}",
        page.board, page.tgs, page.mat, page.pat, page.dor, page.ror, page.phase
    )
}

/// Where a byte of the picture stands, and the cell that it shows.
fn told(page: &Page, at: usize) -> String {
    let mode = page.mode;
    let (row, line) = (at / mode.row(), at % mode.row() / mode.line());
    let byte = at % mode.line();
    let cell = match mode {
        Mode::Forty => cell(page, row, byte / 4),
        Mode::Eighty => code(page, row, byte / 3),
    };
    let is_marked = page.marks[row];
    format!("row {row} (marked: {is_marked}), line {line}, byte {byte}, {cell}")
}

/// A line of a cell has four bytes.
fn cell(page: &Page, row: usize, column: usize) -> String {
    let cells = page.view().page;
    let cell = cells.cell(row, column);
    format!(
        "column {column} (C {:02X}, B {:02X}, A {:02X}, lower half: {}, right half: {})",
        cell.c,
        cell.b,
        cell.a,
        shows_lower(&cells, row, column),
        shows_right(&cells, row, column),
    )
}

/// A line of a cell of 80 columns has three.
fn code(page: &Page, row: usize, position: usize) -> String {
    let code = page.view().page.code(row, position);
    let (c, nibble) = (code.c, code.nibble);
    format!("position {position} (C {c:02X}, attributes {nibble:04b})")
}
