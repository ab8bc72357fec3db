//! The demonstration page of 40 columns: what the operator of a seed dressing plant sees, made by the
//! register accesses of the plant's controller, which has an EF9345 or a TS9347.

mod alarm;
mod bars;
mod batch;
mod drum;
mod frame;
mod keys;
mod letters;
pub(crate) mod screen;
pub(crate) mod title;

use crate::access::Access;
use crate::registers::{Indirect, Registers};
use crate::writer::Writer;
use screen::Screen;

/// The first block of a TS9347's page.
const TS9347_PAGE: u8 = 16;

/// All accesses to an EF9345, from power-up on.
pub fn page() -> Vec<Access> {
    // User sets in blocks 2 and 3, quadrichrome sets from block 0 on.
    written(Writer::of(registers(0x13)))
}

/// All accesses to a TS9347, from power-up on.
pub fn ts9347() -> Vec<Access> {
    // User sets in blocks 2 and 3; the page in the upper half, and so Q0 to Q7 from block 8 on.
    written(Writer::of_ts9347(registers(0x93), TS9347_PAGE))
}

fn written(writer: Writer) -> Vec<Access> {
    let mut screen = Screen::cleared(writer);
    title::service_row(&mut screen);
    title::title(&mut screen);
    frame::frame(&mut screen);
    batch::batch(&mut screen);
    drum::drum(&mut screen);
    bars::bars(&mut screen);
    alarm::alarm(&mut screen);
    keys::keys(&mut screen);
    screen.accesses()
}

/// The registers that say what kind of page it is and where it is kept, DOR with what it has for the part.
pub(crate) fn registers(dor: u8) -> Registers {
    let mut registers = Registers::new();
    registers.nop();
    // 40 columns, the code of three bytes, the service row at Y 0.
    registers.indirect(Indirect::Tgs, 0x00);
    // A black margin, no cursor.
    registers.indirect(Indirect::Mat, 0x00);
    // Service row, upper and lower half shown; conceal and flash act.
    registers.indirect(Indirect::Pat, 0x4F);
    registers.indirect(Indirect::Dor, dor);
    // The page begins at the first block of its half, and its row 1 is at Y 8.
    registers.indirect(Indirect::Ror, 0x08);
    registers
}
