//! The alarm, which flashes.

use super::screen::Screen;
use crate::code::Look;
use crate::colour::Colour::{Black, Red, White};

/// Every cell of the two rows flashes, the spaces too: a cell that does not would be one more thing
/// to keep right.
pub fn alarm(screen: &mut Screen) {
    let loud = Look::of(White, Red).tall().flashing();
    screen.text(20, 0, loud, "  ALARM  Dressing tank low: 12 litres   ");
    let quiet = Look::of(White, Black);
    screen.text(22, 2, quiet, "14:29:51  not acknowledged");
}
