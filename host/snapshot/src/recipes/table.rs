//! The table of recipes: headings underlined, the recipe that runs negative, and what is left in its
//! tank flashing, since it is low.

use super::screen::{Screen, NAMES, VALUES};
use crate::eighty::code::Look;

const TOP: &str =
    "┌────┬────────────────┬─────────────────┬─────────┬───────┬─────────┬──────────┐";
const MIDDLE: &str =
    "├────┼────────────────┼─────────────────┼─────────┼───────┼─────────┼──────────┤";
const BOTTOM: &str =
    "└────┴────────────────┴─────────────────┴─────────┴───────┴─────────┴──────────┘";
const LINE: &str =
    "│    │                │                 │         │       │         │          │";

/// The row of the top rule. The headings, a rule and the recipes follow.
const ROW: usize = 3;

/// Where the fields begin, one after each rule.
const FIELDS: [usize; 7] = [1, 6, 23, 41, 51, 59, 69];

const HEADINGS: [(usize, &str); 7] = [
    (2, "No"),
    (7, "Crop"),
    (24, "Dressing"),
    (45, "Rate"),
    (52, "Water"),
    (64, "t/h"),
    (72, "Litres"),
];

/// Of each recipe the seed, the dressing and its rate, the water in the slurry, the throughput, and
/// what is left of the dressing.
const RECIPES: [[&str; 6]; 12] = [
    ["Winter wheat", "Fungicide A", "200", "60 %", "11.8", "12"],
    ["Winter wheat", "Fungicide B", "150", "50 %", "12.0", "870"],
    ["Spring wheat", "Fungicide B", "150", "50 %", "12.0", "870"],
    ["Winter barley", "Fungicide C", "225", "40 %", "10.5", "455"],
    ["Spring barley", "Fungicide C", "200", "40 %", "10.5", "455"],
    ["Rye", "Fungicide B", "175", "50 %", "11.0", "870"],
    ["Triticale", "Fungicide B", "175", "50 %", "11.0", "870"],
    ["Oats", "Fungicide C", "250", "40 %", "8.0", "455"],
    ["Maize", "Bird repellent", "600", "0 %", "6.5", "1,240"],
    [
        "Oilseed rape",
        "Insecticide D",
        "1,500",
        "20 %",
        "3.0",
        "310",
    ],
    ["Field beans", "Fungicide E", "300", "25 %", "9.0", "96"],
    ["Peas", "Inoculant", "400", "75 %", "9.0", "150"],
];

/// The recipe that runs, and the field of what is left in its tank.
const RUNNING: usize = 0;
const LEFT: usize = 6;

pub fn table(screen: &mut Screen) {
    let names = Look::of(NAMES);
    screen.text(ROW, 0, names, TOP);
    headings(screen, ROW + 1);
    screen.text(ROW + 2, 0, names, MIDDLE);
    for (number, recipe) in RECIPES.into_iter().enumerate() {
        let row = ROW + 3 + number;
        screen.text(row, 0, names, LINE);
        for (field, text) in fields(number, recipe).iter().enumerate() {
            screen.text(row, FIELDS[field], look(number, field), text);
        }
    }
    screen.text(ROW + 3 + RECIPES.len(), 0, names, BOTTOM);
}

/// Only the words are underlined: the fields are wider.
fn headings(screen: &mut Screen, row: usize) {
    screen.text(row, 0, Look::of(NAMES), LINE);
    for (position, heading) in HEADINGS {
        screen.text(row, position, Look::of(NAMES).underlined(), heading);
    }
}

fn look(recipe: usize, field: usize) -> Look {
    match (recipe, field) {
        (RUNNING, LEFT) => Look::of(VALUES).flashing(),
        (RUNNING, _) => Look::of(VALUES).negative(),
        _ => Look::of(VALUES),
    }
}

/// The fields as wide as the table has them: words from the left, numbers to the right.
fn fields(recipe: usize, words: [&str; 6]) -> [String; 7] {
    let [seed, dressing, rate, water, throughput, left] = words;
    [
        format!("{:>3} ", recipe + 1),
        format!(" {seed:<15}"),
        format!(" {dressing:<16}"),
        format!("{rate:>8} "),
        format!("{water:>6} "),
        format!("{throughput:>8} "),
        format!("{left:>9} "),
    ]
}
