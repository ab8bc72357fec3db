//! A cell of 40 columns as a redraw shows it: in a marked row.

use second::address::{code_block, slice_address, Address};
use second::cell::{Cell, Source};
use second::half::{shows_lower, shows_right};

use crate::page::Page;
use crate::short::short_palette;

pub struct Shown<'a> {
    pub page: &'a Page,
    pub cell: Cell,
    pub row: usize,
    pub lower: bool,
    pub right: bool,
    /// The number of colours of its palette, if it shows a rank that none of them has.
    pub short: Option<usize>,
}

impl Shown<'_> {
    pub fn of(page: &Page, row: usize, column: usize) -> Shown<'_> {
        let view = page.view();
        let cell = view.page.cell(row, column);
        Shown {
            page,
            cell,
            row,
            lower: shows_lower(&view.page, row, column),
            right: shows_right(&view.page, row, column),
            short: short_palette(&view, cell),
        }
    }

    pub fn flashes(&self) -> bool {
        self.cell.is_flashing() && self.page.pat / 0x40 % 2 == 1
    }

    pub fn is_hidden(&self) -> bool {
        self.page.phase != self.cell.negative()
    }

    pub fn is_concealed(&self) -> bool {
        self.cell.is_concealed() && self.page.pat / 0x08 % 2 == 1
    }

    /// Whether it is a lower half below a row that is not redrawn.
    pub fn is_below_unmarked(&self) -> bool {
        self.lower && !self.page.marks[self.row - 1]
    }

    /// The block of private memory that holds the cell's slices, if one does.
    fn block(&self) -> Option<usize> {
        match self.cell.source(self.page.dor) {
            Source::Rom(_) => None,
            Source::Block(z) => Some(z),
        }
    }

    /// Whether its slices would be at a place that is not legal.
    pub fn has_no_slices(&self) -> bool {
        let address = |z| slice_address(self.cell.c, 0, z, self.page.board.blocks);
        self.block().is_some_and(|z| address(z) == Address::Illegal)
    }

    /// Whether its slices are in one of the three blocks of the page.
    pub fn has_shown_slices(&self) -> bool {
        let first = self.page.second().first_block();
        let is_shown = |z| (0..3).any(|byte| code_block(first, byte) == z);
        self.block().is_some_and(is_shown)
    }
}
