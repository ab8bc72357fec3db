//! Short palettes: quadrichrome cells that show a rank which has no colour.

use second::cell::Cell;
use second::picture::View;
use second::quadrichrome::{rank_of_pixel, slice_of_line};
use second::LINES;

/// The number of colours, 0 to 3, in the palette of a quadrichrome cell, if a pixel of the cell has
/// a rank that none of them has.
pub fn short_palette(view: &View, cell: Cell) -> Option<usize> {
    let colours = cell.a.count_ones() as usize;
    let is_missing = |value, pixel| rank_of_pixel(value, pixel) >= colours;
    let shows_missing = |line| {
        let value = view.slice(cell, slice_of_line(cell, line));
        (0..8).any(|pixel| is_missing(value, pixel))
    };
    (cell.is_quadrichrome() && (0..LINES).any(shows_missing)).then_some(colours)
}
