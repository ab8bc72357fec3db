//! The last row: what the function keys do.

use super::screen::Screen;
use crate::code::Look;
use crate::colour::Colour::{Black, Cyan, White};

pub fn keys(screen: &mut Screen) {
    let keys = [" F1", " F2", " F3", " F4"];
    let names = ["Stop", "Batch", "Alarm", "Menu"];
    for (place, (key, name)) in keys.into_iter().zip(names).enumerate() {
        let column = 10 * place;
        screen.text(24, column, Look::of(Black, Cyan), key);
        screen.text(24, column + 4, Look::of(White, Black), name);
    }
}
