//! The last row: what the function keys do.

use super::screen::{Screen, NAMES, VALUES};
use crate::eighty::code::Look;

pub fn keys(screen: &mut Screen) {
    let keys = [" F1 ", " F2 ", " F3 ", " F4 "];
    let names = ["Choose", "Change", "Tanks", "Menu"];
    for (place, (key, name)) in keys.into_iter().zip(names).enumerate() {
        let position = 20 * place;
        screen.text(24, position, Look::of(NAMES).negative(), key);
        screen.text(24, position + 5, Look::of(VALUES), name);
    }
}
