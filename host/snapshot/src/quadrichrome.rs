//! A drawing as quadrichrome cells: a palette of up to four colours and ten slices each.

use crate::colour::Colour;
use crate::drawing::{cells, Cell, LINES};

/// A quadrichrome cell of a drawing.
#[derive(Clone, Copy, Debug, PartialEq, Eq)]
pub struct Symbol {
    /// Where it stands in the drawing, counted in cells.
    pub row: usize,
    pub column: usize,
    /// A bit for each colour of the cell.
    pub palette: u8,
    pub slices: [u8; LINES],
}

/// The symbols of a drawing's cells, in their order. What is wrong with a drawing is told in words.
pub fn symbols(drawing: &str) -> Result<Vec<Symbol>, String> {
    cells(drawing)?.iter().map(symbol).collect()
}

fn symbol(cell: &Cell) -> Result<Symbol, String> {
    let &Cell { row, column, .. } = cell;
    let palette = cell
        .dots()
        .fold(0, |palette, dot| palette | 1 << dot.number());
    if u8::count_ones(palette) > 4 {
        return Err(format!(
            "the cell in row {row}, column {column} has more than four colours"
        ));
    }
    Ok(Symbol {
        row,
        column,
        palette,
        slices: cell.lines.map(|dots| slice(&dots, palette)),
    })
}

/// Each two bits of a slice, lowest first, are the rank of a dot's colour.
fn slice(dots: &[Colour], palette: u8) -> u8 {
    let ranks = dots.iter().map(|colour| rank(*colour, palette));
    (0..).zip(ranks).map(|(dot, rank)| rank << (2 * dot)).sum()
}

/// The number of colours of the palette below this one.
fn rank(colour: Colour, palette: u8) -> u8 {
    let below = palette & ((1 << colour.number()) - 1);
    below.count_ones() as u8
}
