//! What pages showed of blocks that are fitted and of others.

use std::fmt;

use second::address::code_block;
use second::cell::{Cell, Source};
use second::{Board, Mode, COLUMNS};

use super::counts::Counts;
use crate::page::Page;

/// The three bytes of a column in a marked row.
struct Shown<'a> {
    page: &'a Page,
    /// Which of the three are fitted.
    fitted: [bool; 3],
    /// As 40 columns have it.
    cell: Cell,
}

type Test = fn(&Shown) -> bool;

const TESTS: [(&str, Test); 11] = [
    ("every byte fitted", |shown| shown.fitted == [true; 3]),
    ("the third byte not fitted", |shown| {
        shown.fitted == [true, true, false]
    }),
    ("the third byte alone fitted", |shown| {
        shown.fitted == [false, false, true]
    }),
    ("no byte fitted", |shown| shown.fitted == [false; 3]),
    ("user set, slices fitted", |shown| {
        !shown.cell.is_quadrichrome() && shown.has_slices(true)
    }),
    ("user set, slices not fitted", |shown| {
        !shown.cell.is_quadrichrome() && shown.has_slices(false)
    }),
    ("quadrichrome, slices fitted", |shown| {
        shown.cell.is_quadrichrome() && shown.has_slices(true)
    }),
    ("quadrichrome, slices not fitted", |shown| {
        shown.cell.is_quadrichrome() && shown.has_slices(false)
    }),
    ("quadrichrome, palette not fitted", |shown| {
        shown.cell.is_quadrichrome() && !shown.fitted[2]
    }),
    ("flashing, set not fitted", |shown| {
        shown.cell.is_flashing() && !shown.fitted[1]
    }),
    ("double height, colours not fitted", |shown| {
        shown.cell.is_double_height() && !shown.fitted[2]
    }),
];

impl Shown<'_> {
    /// Whether its slices are in a block that is fitted, or in one that is not.
    fn has_slices(&self, fitted: bool) -> bool {
        match self.cell.source(self.page.dor) {
            Source::Rom(_) => false,
            Source::Block(z) => (z < self.page.board.blocks) == fitted,
        }
    }
}

/// The counts over all pages of a mode on a board.
pub struct SeenBoard {
    cells: Counts,
}

impl Default for SeenBoard {
    fn default() -> SeenBoard {
        SeenBoard {
            cells: Counts::of(&TESTS.map(|(name, _)| name)),
        }
    }
}

impl SeenBoard {
    /// Counts the columns of a page's marked rows.
    pub fn look(&mut self, page: &Page) {
        let view = page.view();
        let first = view.page.first;
        let fitted = [0, 1, 2].map(|byte| code_block(first, byte) < page.board.blocks);
        for row in page.marked_rows() {
            for column in 0..COLUMNS {
                let cell = view.page.cell(row, column);
                let shown = Shown { page, fitted, cell };
                for (at, (_, test)) in TESTS.iter().enumerate() {
                    self.cells.add(at, test(&shown));
                }
            }
        }
    }

    /// Fails where a kind of column was seen fewer times than `least` that the pages of a mode on a board
    /// show.
    pub fn assert_varied(&self, mode: Mode, board: Board, least: usize) {
        let of_two = [
            "the third byte not fitted",
            "the third byte alone fitted",
            "quadrichrome, palette not fitted",
            "flashing, set not fitted",
            "double height, colours not fitted",
        ];
        let mut but_for = match board {
            Board::TWO => vec!["every byte fitted"],
            _ => of_two.to_vec(),
        };
        if mode == Mode::Eighty {
            // There the same bytes have no sets.
            but_for.extend(TESTS[4..].iter().map(|(name, _)| name));
        }
        self.cells.assert_at_least(least, &but_for);
    }
}

impl fmt::Display for SeenBoard {
    fn fmt(&self, to: &mut fmt::Formatter) -> fmt::Result {
        write!(to, "{}", self.cells)
    }
}
