//! Which half a double height or double width cell shows.

use crate::page::Page;

/// "A double height cell shows its lower half exactly when the cell above it on the screen has the
/// same three bytes and shows its upper half; else the upper." Row 0 has no cell above it. The
/// answer for a cell that is not double height is false and is not used.
pub fn shows_lower(page: &Page, row: usize, column: usize) -> bool {
    let cell = page.cell(row, column);
    if !cell.is_double_height() || row == 0 {
        return false;
    }
    let above = page.cell(row - 1, column);
    above == cell && !shows_lower(page, row - 1, column)
}

/// "Double width is the same to the left, giving the right half."
pub fn shows_right(page: &Page, row: usize, column: usize) -> bool {
    let cell = page.cell(row, column);
    if !cell.is_double_width() || column == 0 {
        return false;
    }
    let left = page.cell(row, column - 1);
    left == cell && !shows_right(page, row, column - 1)
}
