//! The frame around the fields, the drum and the bars.

use super::screen::Screen;
use crate::code::Look;
use crate::colour::Colour::{Black, Cyan};

const LINE: Look = Look::of(Cyan, Black);
const TOP: &str = "┌──────────────────────────┬───────────┐";
const MIDDLE: &str = "├──────────────────────────┴───────────┤";
const BOTTOM: &str = "└──────────────────────────────────────┘";

const SIDE: &str = "│";

pub fn frame(screen: &mut Screen) {
    screen.text(3, 0, LINE, TOP);
    for row in 4..11 {
        sides(screen, row);
        screen.text(row, 27, LINE, SIDE);
    }
    screen.text(11, 0, LINE, MIDDLE);
    for row in 12..18 {
        sides(screen, row);
    }
    screen.text(18, 0, LINE, BOTTOM);
}

fn sides(screen: &mut Screen, row: usize) {
    for column in [0, 39] {
        screen.text(row, column, LINE, SIDE);
    }
}
