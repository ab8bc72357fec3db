//! Which rows a change marks, by the page and by request T-01.

use crate::cell::Cell;
use crate::code::Code;
use crate::command::Indirect;
use crate::mode::Mode;
use crate::page::Page;
use crate::reading;

/// "A store that changes a byte marks the rows whose list, taken just before that store, holds it."
/// The page here is the one just before.
pub fn by_store(page: &Page, row: usize, place: usize) -> bool {
    reading::places(page, row).contains(&place)
}

/// "A changed value in ROR, DOR, PAT or TGS marks all 25", so that a mode change does. "A MAT change
/// marks every row in this mode", which is 80 columns, whatever else a draw would be refused for;
/// in another it marks none.
pub fn by_register(register: Indirect, mode: Option<Mode>) -> bool {
    match register {
        Indirect::Ror | Indirect::Dor | Indirect::Pat | Indirect::Tgs => true,
        Indirect::Mat => mode == Some(Mode::Eighty),
    }
}

/// "A changed phase marks rows with a bichrome cell whose A3 is set", whatever PAT 6 is, and in 80
/// columns "the flash attribute counts as A3 for the phase".
pub fn by_phase(page: &Page, row: usize) -> bool {
    match page.mode {
        Mode::Forty => page.cells(row).any(Cell::is_flashing),
        Mode::Eighty => page.codes(row).any(Code::is_flashing),
    }
}
