//! The table of recipes: its frame, and a recipe in a row of it. The recipe that runs is green.

use super::recipes::RECIPES;
use crate::code::Look;
use crate::colour::Colour::{Black, Cyan, Green, White};
use crate::demonstration::screen::Screen;

/// The rows of the screen that have recipes.
pub const FIRST: usize = 6;
pub const LAST: usize = 20;

const TOP: &str = "┌───┬──────────────┬──────────────┬────┐";
const MIDDLE: &str = "├───┼──────────────┼──────────────┼────┤";
const BOTTOM: &str = "└───┴──────────────┴──────────────┴────┘";
const SIDE: &str = "│";

const LINE: Look = Look::of(Cyan, Black);

/// Where the fields begin, one after each side, and where the last side is.
const FIELDS: [usize; 4] = [1, 5, 20, 35];
const END: usize = 39;

const HEADINGS: [(usize, &str); 4] = [(1, "No"), (6, "Crop"), (21, "Dressing"), (35, "Rate")];

/// The recipe that runs, by its place in the list.
const RUNNING: usize = 3;

pub fn frame(screen: &mut Screen) {
    screen.text(FIRST - 3, 0, LINE, TOP);
    sides(screen, FIRST - 2);
    for (column, heading) in HEADINGS {
        screen.text(FIRST - 2, column, LINE.underlined(), heading);
    }
    screen.text(FIRST - 1, 0, LINE, MIDDLE);
    screen.text(LAST + 1, 0, LINE, BOTTOM);
}

/// A whole row, with the recipe that has this place in the list.
pub fn recipe(screen: &mut Screen, row: usize, place: usize) {
    let look = match place {
        RUNNING => Look::of(Black, Green),
        _ => Look::of(White, Black),
    };
    sides(screen, row);
    for (column, text) in FIELDS.into_iter().zip(fields(place)) {
        screen.text(row, column, look, &text);
    }
}

fn sides(screen: &mut Screen, row: usize) {
    for column in FIELDS.map(|field| field - 1).into_iter().chain([END]) {
        screen.text(row, column, LINE, SIDE);
    }
}

/// The fields as wide as the table has them: words from the left, numbers to the right.
fn fields(place: usize) -> [String; 4] {
    let [crop, dressing, rate] = RECIPES[place];
    [
        format!("{:>2} ", place + 1),
        format!(" {crop:<13}"),
        format!(" {dressing:<13}"),
        format!("{rate:>4}"),
    ]
}
