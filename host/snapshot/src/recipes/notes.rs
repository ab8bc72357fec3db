//! What there is to say of the recipes.

use super::screen::{Screen, NAMES, VALUES};
use crate::eighty::code::Look;

const RUNNING: &str = "Recipe 1 runs on line 2: 12 litres of Fungicide A last half an hour.";
const UNITS: &str = "Rate: ml of dressing for 100 kg of seed. Water: its share of the slurry.";

pub fn notes(screen: &mut Screen) {
    screen.text(20, 2, Look::of(VALUES), RUNNING);
    screen.text(22, 2, Look::of(NAMES), UNITS);
}
