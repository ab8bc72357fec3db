//! The demonstration page of 80 columns: the recipes of a seed dressing plant, made by the register
//! accesses of the plant's controller.

mod keys;
mod notes;
mod rules;
mod screen;
mod table;
mod title;

use crate::access::Access;
use crate::registers::{Indirect, Registers};
use screen::Screen;

/// All accesses, from power-up on.
pub fn page() -> Vec<Access> {
    let mut screen = Screen::cleared(registers());
    title::service_row(&mut screen);
    title::title(&mut screen);
    table::table(&mut screen);
    notes::notes(&mut screen);
    keys::keys(&mut screen);
    screen.accesses()
}

/// The registers that say what kind of page it is, where it is kept, and its three colours.
fn registers() -> Registers {
    let mut registers = Registers::new();
    registers.nop();
    // 80 columns, the code of twelve bits, the service row at Y 0.
    registers.indirect(Indirect::Tgs, 0xC0);
    // The background of every cell is the colour of the margin: black. No cursor.
    registers.indirect(Indirect::Mat, 0x00);
    // Service row, upper and lower half shown; flash acts.
    registers.indirect(Indirect::Pat, 0x47);
    // The two foregrounds: white, and cyan for cells with D.
    registers.indirect(Indirect::Dor, 0x67);
    // The page begins at block 0, and its row 1 is at Y 8.
    registers.indirect(Indirect::Ror, 0x08);
    registers
}
