//! The reading list of a row: every place of private memory that its drawing may read.

use std::collections::BTreeSet;

use crate::address::slice_address;
use crate::cell::{Cell, Source};
use crate::mode::Mode;
use crate::page::Page;
use crate::{COLUMNS, LINES};

/// The 120 places of the codes of a row, but for those that are not fitted: such a byte "is on no
/// reading list".
pub fn code_places(page: &Page, row: usize) -> Vec<usize> {
    let mut places = Vec::new();
    for column in 0..COLUMNS {
        for byte in 0..3 {
            places.extend(page.code_address(row, column, byte).fitted());
        }
    }
    places
}

/// The legal and fitted ones among the ten slices of a user or quadrichrome cell, those of the sets Q
/// among them; none for a cell of the ROM. All ten count, also at low resolution.
pub fn slice_places(page: &Page, cell: Cell) -> Vec<usize> {
    match cell.source(page.dor) {
        Source::Rom(_) => Vec::new(),
        Source::Block(block) => (0..LINES)
            .filter_map(|slice| slice_address(cell.c, slice, block, page.board.blocks).fitted())
            .collect(),
    }
}

/// Whether a row has a double height bichrome cell in any column.
pub fn has_double_height(page: &Page, row: usize) -> bool {
    page.cells(row).any(Cell::is_double_height)
}

/// "If r is not 0 and has a double height bichrome cell, the 120 bytes of row r − 1, and so upward
/// while the row added has one too." Rows added give no slices.
pub fn upward_places(page: &Page, row: usize) -> Vec<usize> {
    if row == 0 || !has_double_height(page, row) {
        return Vec::new();
    }
    let mut places = code_places(page, row - 1);
    places.extend(upward_places(page, row - 1));
    places
}

/// The whole list of a row; a place may stand in it more than once. In 80 columns "a row's list is its
/// 120 bytes".
pub fn places(page: &Page, row: usize) -> Vec<usize> {
    match page.mode {
        Mode::Forty => places_of_forty(page, row),
        Mode::Eighty => code_places(page, row),
    }
}

/// The list of a row of 40 columns in the page's order.
pub fn places_of_forty(page: &Page, row: usize) -> Vec<usize> {
    let mut places = code_places(page, row);
    for cell in page.cells(row) {
        places.extend(slice_places(page, cell));
    }
    places.extend(upward_places(page, row));
    places
}

/// The list as a set of places.
pub fn list(page: &Page, row: usize) -> BTreeSet<usize> {
    places(page, row).into_iter().collect()
}
