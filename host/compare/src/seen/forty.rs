//! What pages of 40 columns of the EF9345 showed.

use std::fmt;

use second::set::Set;
use second::{Part, COLUMNS};

use super::counts::Counts;
use super::places::Places;
use super::shown::Shown;
use crate::page::Page;

type Test = fn(&Shown) -> bool;

const TESTS: [(&str, Test); 30] = [
    ("G0", |shown| shown.cell.set() == Some(Set::G0)),
    ("G10", |shown| shown.cell.set() == Some(Set::G10)),
    ("G11", |shown| shown.cell.set() == Some(Set::G11)),
    ("G20", |shown| shown.cell.set() == Some(Set::G20)),
    ("G21", |shown| shown.cell.set() == Some(Set::G21)),
    ("G'0", |shown| shown.cell.set() == Some(Set::UserG0)),
    ("G'10", |shown| shown.cell.set() == Some(Set::UserG10)),
    ("G'11", |shown| shown.cell.set() == Some(Set::UserG11)),
    ("high resolution", |shown| {
        shown.cell.is_quadrichrome() && !shown.cell.is_low_resolution()
    }),
    ("low resolution, K 0", |shown| {
        shown.cell.is_low_resolution() && shown.cell.k() == 0
    }),
    ("low resolution, K 1", |shown| {
        shown.cell.is_low_resolution() && shown.cell.k() == 1
    }),
    ("no colour, a rank missing", |shown| shown.short == Some(0)),
    ("one colour, a rank missing", |shown| shown.short == Some(1)),
    ("two colours, a rank missing", |shown| {
        shown.short == Some(2)
    }),
    ("three colours, a rank missing", |shown| {
        shown.short == Some(3)
    }),
    ("more than four colours", |shown| {
        shown.cell.is_quadrichrome() && shown.cell.a.count_ones() > 4
    }),
    ("upper half", |shown| {
        shown.cell.is_double_height() && !shown.lower
    }),
    ("lower half", |shown| shown.lower),
    ("left half", |shown| {
        shown.cell.is_double_width() && !shown.right
    }),
    ("right half", |shown| shown.right),
    ("lower right quarter", |shown| shown.lower && shown.right),
    ("lower half below a row that is not marked", |shown| {
        shown.is_below_unmarked()
    }),
    ("underlined", |shown| shown.cell.is_underlined()),
    ("concealed", |shown| shown.is_concealed()),
    ("flashing, shown", |shown| {
        shown.flashes() && !shown.is_hidden()
    }),
    ("flashing, hidden", |shown| {
        shown.flashes() && shown.is_hidden()
    }),
    ("negative", |shown| {
        !shown.cell.is_quadrichrome() && shown.cell.negative() == 1
    }),
    ("slices in a shown block", |shown| shown.has_shown_slices()),
    ("slices at no legal place", |shown| shown.has_no_slices()),
    ("no colour, slices at no legal place", |shown| {
        shown.has_no_slices() && shown.short == Some(0)
    }),
];

/// The counts over all pages.
pub struct SeenForty {
    pub cells: Counts,
    places: Places,
}

impl Default for SeenForty {
    fn default() -> SeenForty {
        SeenForty {
            cells: Counts::of(&TESTS.map(|(name, _)| name)),
            places: Places::default(),
        }
    }
}

impl SeenForty {
    /// Counts a page and the cells of its marked rows.
    pub fn look(&mut self, page: &Page) {
        self.places.look(page);
        for row in page.marked_rows() {
            for column in 0..COLUMNS {
                self.look_at_cell(&Shown::of(page, row, column));
            }
        }
    }

    fn look_at_cell(&mut self, shown: &Shown) {
        for (at, (_, test)) in TESTS.iter().enumerate() {
            self.cells.add(at, test(shown));
        }
    }

    /// Fails where a kind of cell was seen fewer times than `least`, or an origin, a first block or
    /// a phase not at all. `but_for` names the kinds that the pages cannot show.
    pub fn assert_varied(&self, least: usize, but_for: &[&str]) {
        self.cells.assert_at_least(least, but_for);
        self.places.assert_every_one(Part::Ef9345);
    }
}

impl fmt::Display for SeenForty {
    fn fmt(&self, to: &mut fmt::Formatter) -> fmt::Result {
        write!(to, "{}{}", self.cells, self.places)
    }
}
