//! The service row, with what is true of the whole line, and the title.

use super::screen::Screen;
use crate::code::Look;
use crate::colour::Colour::{Black, Blue, Green, White, Yellow};

pub fn service_row(screen: &mut Screen) {
    let plain = Look::of(White, Blue);
    screen.band(0, plain);
    screen.text(0, 1, plain, "Line 2");
    screen.text(0, 12, Look::of(Black, Green), " AUTO ");
    screen.text(0, 20, plain, "Running");
    screen.text(0, 31, plain, "14:32:07");
}

pub fn title(screen: &mut Screen) {
    let large = Look::of(Yellow, Black).tall().wide();
    screen.text(1, 7, large, "SEED DRESSING");
}
