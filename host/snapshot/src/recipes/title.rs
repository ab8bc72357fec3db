//! The service row, with what is true of the whole line, and the title.

use super::screen::{Screen, NAMES, VALUES};
use crate::eighty::code::Look;

const TITLE: &str = include_str!("title.txt");

/// A negative band: it is filled with the foreground.
pub fn service_row(screen: &mut Screen) {
    let band = Look::of(NAMES).negative();
    screen.band(0, band);
    screen.text(0, 2, band, "Line 2");
    screen.text(0, 14, band, "AUTO");
    screen.text(0, 24, band, "Running");
    screen.text(0, 70, band, "14:32:07");
}

/// Large letters, each window of a mosaic a dot.
pub fn title(screen: &mut Screen) {
    screen.drawing(1, 2, NAMES, TITLE);
    screen.text(1, 50, Look::of(VALUES), "Seed dressing");
    screen.text(2, 50, Look::of(NAMES), "12 recipes, page 1 of 1");
}
