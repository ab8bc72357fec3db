//! The demonstration of a scroll: a list of recipes that is longer than the screen has rows for it, and then the
//! accesses by which it goes up by one row. Each row is copied to the one above it by a move, with its colours and
//! its rules, and the next recipe is written into the last.

mod recipes;
mod table;

use crate::access::Access;
use crate::code::Look;
use crate::colour::Colour::{Black, Cyan, White, Yellow};
use crate::demonstration::screen::Screen;
use crate::demonstration::{registers, title};
use crate::writer::Writer;
use recipes::RECIPES;
use table::{FIRST, LAST};

/// The recipes that are shown at a time.
const SHOWN: usize = LAST - FIRST + 1;

/// All accesses that show the list from its first recipe on, from power-up on.
pub fn list() -> Vec<Access> {
    listed().accesses()
}

/// The same accesses, and then those that scroll it by one row.
pub fn scrolled() -> Vec<Access> {
    let mut screen = listed();
    for row in FIRST..LAST {
        screen.copy_row(row + 1, row);
    }
    table::recipe(&mut screen, LAST, SHOWN);
    position(&mut screen, 1);
    screen.accesses()
}

fn listed() -> Screen {
    // No user set and no quadrichrome set is shown.
    let mut screen = Screen::cleared(Writer::of(registers(0x00)));
    title::service_row(&mut screen);
    let large = Look::of(Yellow, Black).tall().wide();
    screen.text(1, 13, large, "RECIPES");
    table::frame(&mut screen);
    for row in FIRST..=LAST {
        table::recipe(&mut screen, row, row - FIRST);
    }
    position(&mut screen, 0);
    keys(&mut screen);
    screen
}

/// Which recipes are shown, of which the first is the one with this place in the list.
fn position(screen: &mut Screen, first: usize) {
    let (from, to, all) = (first + 1, first + SHOWN, RECIPES.len());
    let text = format!("Recipes {from:>2} to {to:>2} of {all}");
    screen.text(22, 1, Look::of(Cyan, Black), &text);
}

/// The last row: what the function keys do.
fn keys(screen: &mut Screen) {
    for (column, key, name) in [(0, " F1", "Up"), (10, " F2", "Down"), (20, " F3", "Choose")] {
        screen.text(24, column, Look::of(Black, Cyan), key);
        screen.text(24, column + 4, Look::of(White, Black), name);
    }
}
