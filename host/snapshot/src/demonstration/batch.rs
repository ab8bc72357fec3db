//! The fields of the batch: what is dressed, with what, and at which rate.

use super::screen::Screen;
use crate::code::Look;
use crate::colour::Colour::{Black, Cyan, Green, White, Yellow};

const NAMES: usize = 2;
const VALUES: usize = 12;

pub fn batch(screen: &mut Screen) {
    field(screen, 4, "Batch", "W-0417-26");
    field(screen, 5, "Seed", "Winter wheat");
    field(screen, 6, "Grower", "Müller");
    field(screen, 7, "Dressing", "Fungicide A");
    rate(screen);
    let within = Look::of(Green, Black);
    screen.text(10, NAMES, Look::of(Cyan, Black), "Measured");
    screen.text(10, VALUES, within, "198 ml/100 kg");
}

fn field(screen: &mut Screen, row: usize, name: &str, value: &str) {
    screen.text(row, NAMES, Look::of(Cyan, Black), name);
    screen.text(row, VALUES, Look::of(White, Black), value);
}

/// The rate is what must not be misread: it is tall. It can be changed, so it is underlined.
fn rate(screen: &mut Screen) {
    let tall = Look::of(Yellow, Black).tall();
    screen.text(8, NAMES, Look::of(Cyan, Black).tall(), "Rate");
    screen.text(8, VALUES, tall.underlined(), "200");
    screen.text(8, VALUES + 3, tall, " ml/100 kg");
}
