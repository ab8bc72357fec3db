//! What pages of the TS9347 showed.

use std::fmt;

use second::set::Set;
use second::{Part, COLUMNS};

use super::counts::Counts;
use super::places::Places;
use super::shown::Shown;
use crate::page::Page;

type Test = fn(&Shown) -> bool;

const TESTS: [(&str, Test); 31] = [
    ("G0", |shown| shown.is_of(Set::G0)),
    ("G10", |shown| shown.is_of(Set::G10)),
    ("GOE", |shown| shown.is_of(Set::Goe)),
    ("G'0", |shown| shown.is_of(Set::UserG0)),
    ("G'10", |shown| shown.is_of(Set::UserG10)),
    ("G'11", |shown| shown.is_of(Set::UserG11)),
    ("Q", |shown| shown.is_of(Set::Q)),
    ("Q, where DOR 7 is set", |shown| {
        shown.is_of(Set::Q) && shown.page.dor >= 0x80
    }),
    ("Q with B3", |shown| shown.is_of(Set::Q) && shown.has(0x08)),
    ("a set of the ROM with B6", |shown| {
        shown.cell.b < 0x80 && shown.has(0x40)
    }),
    ("upper half", |shown| shown.is_upper()),
    ("lower half", |shown| shown.lower),
    ("lower half of G0 or G'0", |shown| {
        shown.lower && shown.cell.is_alphanumeric()
    }),
    ("lower half of GOE", |shown| {
        shown.lower && shown.is_of(Set::Goe)
    }),
    ("upper half of GOE", |shown| {
        shown.is_upper() && shown.is_of(Set::Goe)
    }),
    ("lower half of Q", |shown| {
        shown.lower && shown.is_of(Set::Q)
    }),
    ("upper half of Q", |shown| {
        shown.is_upper() && shown.is_of(Set::Q)
    }),
    ("left half", |shown| {
        shown.cell.is_double_width() && !shown.right
    }),
    ("right half", |shown| shown.right),
    ("lower right quarter", |shown| shown.lower && shown.right),
    (BELOW_UNMARKED, |shown| shown.is_below_unmarked()),
    ("underlined", |shown| shown.cell.is_underlined()),
    ("concealed", |shown| shown.is_concealed()),
    ("concealed, of Q", |shown| {
        shown.is_concealed() && shown.is_of(Set::Q)
    }),
    ("flashing, shown", |shown| {
        shown.flashes() && !shown.is_hidden()
    }),
    ("flashing, hidden", |shown| {
        shown.flashes() && shown.is_hidden()
    }),
    ("flashing, hidden, of Q", |shown| {
        shown.flashes() && shown.is_hidden() && shown.is_of(Set::Q)
    }),
    ("negative", |shown| shown.cell.negative() == 1),
    ("negative, of Q", |shown| {
        shown.cell.negative() == 1 && shown.is_of(Set::Q)
    }),
    ("slices in a shown block", |shown| shown.has_shown_slices()),
    ("slices at no legal place", |shown| shown.has_no_slices()),
];

/// What no page shows of which every row is marked.
pub const BELOW_UNMARKED: &str = "lower half below a row that is not marked";

impl Shown<'_> {
    fn is_of(&self, set: Set) -> bool {
        self.cell.set() == Some(set)
    }

    fn has(&self, bits: u8) -> bool {
        self.cell.b & bits == bits
    }

    fn is_upper(&self) -> bool {
        self.cell.is_double_height() && !self.lower
    }
}

/// The counts over all pages.
pub struct SeenTs9347 {
    cells: Counts,
    places: Places,
    /// Cells of each B.
    codes: [usize; 256],
    /// Cells of each of the sets Q.
    numbers: [usize; 8],
}

impl Default for SeenTs9347 {
    fn default() -> SeenTs9347 {
        SeenTs9347 {
            cells: Counts::of(&TESTS.map(|(name, _)| name)),
            places: Places::default(),
            codes: [0; 256],
            numbers: [0; 8],
        }
    }
}

impl SeenTs9347 {
    /// Counts a page and the cells of its marked rows.
    pub fn look(&mut self, page: &Page) {
        self.places.look(page);
        for row in page.marked_rows() {
            for column in 0..COLUMNS {
                self.look_at_cell(&Shown::of(page, row, column));
            }
        }
    }

    fn look_at_cell(&mut self, shown: &Shown) {
        for (at, (_, test)) in TESTS.iter().enumerate() {
            self.cells.add(at, test(shown));
        }
        let b = usize::from(shown.cell.b);
        self.codes[b] += 1;
        self.numbers[b / 8 % 8] += usize::from(shown.is_of(Set::Q));
    }

    /// Fails where a kind of cell or a set Q was seen fewer times than `least`, or a B, an origin, a first
    /// block or a phase not at all. `but_for` names the kinds that the pages cannot show.
    pub fn assert_varied(&self, least: usize, but_for: &[&str]) {
        self.cells.assert_at_least(least, but_for);
        self.places.assert_every_one(Part::Ts9347);
        assert!(self.numbers.iter().all(|cells| *cells >= least), "{self}");
        assert!(self.codes.iter().all(|cells| *cells > 0), "{self}");
    }
}

impl fmt::Display for SeenTs9347 {
    fn fmt(&self, to: &mut fmt::Formatter) -> fmt::Result {
        let rarest = self.codes.iter().min().unwrap_or(&0);
        writeln!(to, "{}cells of the rarest B: {rarest}", self.cells)?;
        writeln!(to, "cells of each set Q: {:?}", self.numbers)?;
        write!(to, "{}", self.places)
    }
}
