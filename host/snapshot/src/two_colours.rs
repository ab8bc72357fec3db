//! A drawing as bichrome cells, for a part that has no others: each has one colour on black, the one that
//! most of its dots have, and ten slices.

use crate::colour::Colour;
use crate::drawing::{cells, Cell, LINES};

/// A bichrome cell of a drawing.
#[derive(Clone, Copy, Debug, PartialEq, Eq)]
pub struct Symbol {
    /// Where it stands in the drawing, counted in cells.
    pub row: usize,
    pub column: usize,
    pub foreground: Colour,
    pub slices: [u8; LINES],
}

/// The symbols of a drawing's cells, in their order. What is wrong with a drawing is told in words.
pub fn symbols(drawing: &str) -> Result<Vec<Symbol>, String> {
    Ok(cells(drawing)?.iter().map(symbol).collect())
}

fn symbol(cell: &Cell) -> Symbol {
    Symbol {
        row: cell.row,
        column: cell.column,
        foreground: foreground(cell),
        slices: cell.lines.map(|dots| slice(&dots)),
    }
}

/// The colour that most dots have, black left aside; of two that as many have, the one that comes later.
fn foreground(cell: &Cell) -> Colour {
    let dots_of = |colour: &Colour| cell.dots().filter(|dot| dot == colour).count();
    let [_, colours @ ..] = Colour::ALL;
    let most = colours.into_iter().max_by_key(dots_of);
    most.unwrap_or(Colour::White)
}

/// A dot is two pixels, lowest bits first; all that is not black is foreground.
fn slice(dots: &[Colour]) -> u8 {
    let pixels = dots.iter().map(|dot| match dot {
        Colour::Black => 0b00,
        _ => 0b11,
    });
    (0..).zip(pixels).map(|(dot, two)| two << (2 * dot)).sum()
}
