//! What pages of 80 columns showed.

use std::fmt;

use second::code::Code;
use second::{Part, POSITIONS};

use super::counts::Counts;
use super::places::Places;
use crate::page::Page;

/// A cell as a redraw shows it: in a marked row.
struct Shown<'a> {
    page: &'a Page,
    code: Code,
}

type Test = fn(&Shown) -> bool;

const TESTS: [(&str, Test); 14] = [
    ("character, D 0", |shown| shown.is_character_of(0)),
    ("character, D 1", |shown| shown.is_character_of(1)),
    ("mosaic, D 0", |shown| shown.is_mosaic_of(0)),
    ("mosaic, D 1", |shown| shown.is_mosaic_of(1)),
    ("underlined", |shown| shown.code.is_underlined()),
    ("negative", |shown| shown.code.negative() == 1),
    ("flashing, shown", |shown| {
        shown.flashes() && !shown.is_hidden()
    }),
    ("flashing, hidden", |shown| shown.is_hidden()),
    ("flashing, hidden and negative", |shown| {
        shown.is_hidden() && shown.code.negative() == 1
    }),
    ("flashing, where PAT 6 is clear", |shown| {
        shown.code.is_flashing() && !shown.flashes()
    }),
    ("underlined and hidden", |shown| {
        shown.code.is_underlined() && shown.is_hidden()
    }),
    ("underlined and negative", |shown| {
        shown.code.is_underlined() && shown.code.negative() == 1
    }),
    ("mosaic with bit 2 where PAT 6 is set", |shown| {
        shown.code.is_mosaic() && shown.code.nibble & 4 == 4 && shown.page.pat & 0x40 == 0x40
    }),
    ("character where PAT 3 is set", |shown| {
        !shown.code.is_mosaic() && shown.page.pat & 0x08 == 0x08
    }),
];

impl Shown<'_> {
    fn is_character_of(&self, d: u8) -> bool {
        !self.code.is_mosaic() && self.code.d() == d
    }

    fn is_mosaic_of(&self, d: u8) -> bool {
        self.code.is_mosaic() && self.code.d() == d
    }

    fn flashes(&self) -> bool {
        self.code.is_flashing() && self.page.pat & 0x40 == 0x40
    }

    fn is_hidden(&self) -> bool {
        self.flashes() && self.page.phase != self.code.negative()
    }
}

/// The counts over all pages.
pub struct SeenEighty {
    cells: Counts,
    places: Places,
    /// Pages of each colour where D is 0, of each where it is 1, and of each of the margin.
    colours: [[usize; 8]; 3],
    /// Cells of each code of twelve bits.
    codes: Vec<usize>,
}

impl Default for SeenEighty {
    fn default() -> SeenEighty {
        SeenEighty {
            cells: Counts::of(&TESTS.map(|(name, _)| name)),
            places: Places::default(),
            colours: Default::default(),
            codes: vec![0; 4096],
        }
    }
}

impl SeenEighty {
    /// Counts a page and the cells of its marked rows.
    pub fn look(&mut self, page: &Page) {
        self.places.look(page);
        let colours = [page.dor % 8, page.dor / 16 % 8, page.mat % 8];
        for (counts, colour) in self.colours.iter_mut().zip(colours) {
            counts[usize::from(colour)] += 1;
        }
        let view = page.view();
        for row in page.marked_rows() {
            for position in 0..POSITIONS {
                let code = view.page.code(row, position);
                self.look_at_cell(Shown { page, code });
            }
        }
    }

    fn look_at_cell(&mut self, shown: Shown) {
        for (at, (_, test)) in TESTS.iter().enumerate() {
            self.cells.add(at, test(&shown));
        }
        let Code { c, nibble } = shown.code;
        self.codes[16 * usize::from(c) + usize::from(nibble)] += 1;
    }

    /// The code that was seen least, and how often.
    fn rarest(&self) -> (usize, usize) {
        let codes = self.codes.iter().copied().enumerate();
        let rarest = codes.min_by_key(|(_, cells)| *cells);
        rarest.expect("there are codes")
    }

    /// Fails where a kind of cell was seen fewer times than `least`, or a code, a colour, an origin,
    /// a first block or a phase not at all.
    pub fn assert_varied(&self, least: usize) {
        self.cells.assert_at_least(least, &[]);
        self.places.assert_every_one(Part::Ef9345);
        assert!(self.rarest().1 > 0, "{self}");
        let mut pages = self.colours.iter().flatten();
        assert!(pages.all(|pages| *pages > 0), "{self}");
    }
}

impl fmt::Display for SeenEighty {
    fn fmt(&self, to: &mut fmt::Formatter) -> fmt::Result {
        let (code, cells) = self.rarest();
        writeln!(
            to,
            "{}the rarest code, {code:03X}: {cells} cells",
            self.cells
        )?;
        let [d0, d1, margin] = self.colours;
        writeln!(to, "pages of each colour, D 0: {d0:?}, D 1: {d1:?}")?;
        writeln!(to, "pages of each colour of the margin: {margin:?}")?;
        write!(to, "{}", self.places)
    }
}
