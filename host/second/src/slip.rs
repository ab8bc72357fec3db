//! Wrong rules, planted so that the tests can show that they would see one.

mod moves;
mod ts9347;

use crate::address::{address, code_block, fitted, place};
use crate::cell::Cell;
use crate::code::Code;
use crate::command::Indirect;
use crate::marks;
use crate::mode::Mode;
use crate::packing::with_nibble;
use crate::page::{screen_y, Page};
use crate::part::Part;
use crate::picture::View;
use crate::pointer::{Pointer, Which};
use crate::reading::{
    code_places, has_double_height, places, places_of_forty, slice_places, upward_places,
};
use crate::rules::Rules;
use crate::COLUMNS;

/// A wrong rule, or none.
#[derive(Clone, Copy, Debug, PartialEq, Eq)]
pub enum Slip {
    None,
    /// A store to a slice of a bichrome user set is forgotten.
    UserSliceForgotten,
    /// The row below is forgotten: no list goes upward.
    RowAboveForgotten,
    /// A list goes one row upward and no further.
    ChainStopsAfterOneRow,
    /// A phase change marks nothing in 40 columns.
    PhaseForgotten,
    /// A change of DOR marks nothing.
    DorForgotten,
    /// A store to a slice of a quadrichrome set is forgotten.
    QuadrichromeSliceForgotten,
    /// The lists take the third block of a code from the next district.
    ThirdBlockFromNextDistrict,
    /// A change of MAT marks nothing in 80 columns.
    MatForgotten,
    /// A change of MAT marks every row in 40 columns too.
    MatMarksForty,
    /// A mode change marks nothing.
    ModeForgotten,
    /// The flash attribute is forgotten: a phase change marks nothing in 80 columns.
    FlashForgottenInEighty,
    /// Bit 2 of a mosaic's nibble counts as its flash attribute.
    MosaicsFlash,
    /// A list in 80 columns takes slices and rows above, as one in 40 does.
    EightyReadsAsForty,
    /// KRL stores the whole of R3 as the byte of attributes.
    WholeAttributesStored,
    /// KRL takes the nibble from the other half of R3.
    NibbleFromOtherHalf,
    /// The lists take a byte of a code that is not fitted for its mirror in a block that is.
    NotFittedMirrored,
    /// A row has no list where a block of its codes is not fitted.
    PartlyFittedForgotten,
    /// Of the TS9347: Z4 is left out of both pointers.
    Z4Forgotten,
    /// Its auxiliary pointer takes Z3 from R6 bit 6, as the EF9345's does.
    AuxiliaryZ3InR6,
    /// Its cells of the sets Q are drawn as quadrichrome.
    QuadrichromeQ,
    /// B3 of its cells of the sets Q is double width.
    DoubleWidthQ,
    /// Its double height cells of GOE are drawn as alphanumeric.
    AlphanumericGoe,
    /// DOR 7 is left out of its page's first block.
    Dor7Forgotten,
    /// Its ROM is read with G0 first, as the EF9345's is.
    RomInOldOrder,
    /// Of a move: the stores of a step mark nothing.
    StepUnmarked,
    /// A move takes its second and third block from the next district.
    MoveLeavesDistrict,
    /// The bytes of a position are all read before the first of them is stored.
    PositionReadFirst,
    /// The auxiliary pointer's Y goes on too.
    AuxiliaryGoesDown,
    /// Y goes from 0 to 8.
    ServiceRowLeft,
    /// Y goes from 31 to 0.
    ServiceRowEntered,
    /// A move ends at the source's last column and not at the destination's.
    StopAtSourceAlone,
    /// Any access is accepted while busy.
    BusyForgotten,
}

impl Slip {
    /// All that are planted.
    pub const PLANTED: [Slip; 32] = [
        Slip::UserSliceForgotten,
        Slip::RowAboveForgotten,
        Slip::ChainStopsAfterOneRow,
        Slip::PhaseForgotten,
        Slip::DorForgotten,
        Slip::QuadrichromeSliceForgotten,
        Slip::ThirdBlockFromNextDistrict,
        Slip::MatForgotten,
        Slip::MatMarksForty,
        Slip::ModeForgotten,
        Slip::FlashForgottenInEighty,
        Slip::MosaicsFlash,
        Slip::EightyReadsAsForty,
        Slip::WholeAttributesStored,
        Slip::NibbleFromOtherHalf,
        Slip::NotFittedMirrored,
        Slip::PartlyFittedForgotten,
        Slip::Z4Forgotten,
        Slip::AuxiliaryZ3InR6,
        Slip::QuadrichromeQ,
        Slip::DoubleWidthQ,
        Slip::AlphanumericGoe,
        Slip::Dor7Forgotten,
        Slip::RomInOldOrder,
        Slip::StepUnmarked,
        Slip::MoveLeavesDistrict,
        Slip::PositionReadFirst,
        Slip::AuxiliaryGoesDown,
        Slip::ServiceRowLeft,
        Slip::ServiceRowEntered,
        Slip::StopAtSourceAlone,
        Slip::BusyForgotten,
    ];

    /// The list that the slip takes for a row's.
    fn places(self, page: &Page, row: usize) -> Vec<usize> {
        match (self, page.mode) {
            (Slip::NotFittedMirrored, _) => with_mirrors(page, row),
            (Slip::PartlyFittedForgotten, _) if !is_fitted(page) => Vec::new(),
            (Slip::Dor7Forgotten, _) => places(&ts9347::without_dor_7(page), row),
            (_, Mode::Forty) => self.places_of_forty(page, row),
            (_, Mode::Eighty) => self.places_of_eighty(page, row),
        }
    }

    fn places_of_forty(self, page: &Page, row: usize) -> Vec<usize> {
        match self {
            Slip::UserSliceForgotten => list_of(page, row, Cell::is_quadrichrome, upward_places),
            Slip::RowAboveForgotten => list_of(page, row, |_| true, |_, _| Vec::new()),
            Slip::ChainStopsAfterOneRow => list_of(page, row, |_| true, one_row_upward),
            Slip::QuadrichromeSliceForgotten => {
                list_of(page, row, |cell| !cell.is_quadrichrome(), upward_places)
            }
            Slip::ThirdBlockFromNextDistrict => with_next_district(page, row),
            _ => places(page, row),
        }
    }

    fn places_of_eighty(self, page: &Page, row: usize) -> Vec<usize> {
        match self {
            Slip::EightyReadsAsForty => places_of_forty(page, row),
            Slip::ThirdBlockFromNextDistrict => code_places_of_next_district(page, row),
            _ => places(page, row),
        }
    }
}

impl Rules for Slip {
    fn pointer(&self, part: Part, registers: &[u8; 8], which: Which) -> Pointer {
        let right = Pointer::of(part, registers, which);
        match (self, part) {
            (Slip::Z4Forgotten, Part::Ts9347) => ts9347::without_z4(right),
            (Slip::AuxiliaryZ3InR6, Part::Ts9347) => ts9347::with_z3_in_r6(right, registers, which),
            _ => right,
        }
    }

    fn row(&self, view: &View, row: usize) -> Vec<u8> {
        match view.page.board.part {
            Part::Ef9345 => view.row(row),
            Part::Ts9347 => ts9347::row(*self, view, row),
        }
    }

    fn store_marks(&self, page: &Page, row: usize, place: usize) -> bool {
        self.places(page, row).contains(&place)
    }

    fn step_marks(&self, page: &Page, row: usize, place: usize) -> bool {
        *self != Slip::StepUnmarked && self.store_marks(page, row, place)
    }

    fn moved_block(&self, first: usize, byte: usize) -> usize {
        moves::block(*self, first, byte)
    }

    fn moved_byte(&self, before: u8, now: u8) -> u8 {
        match self {
            Slip::PositionReadFirst => before,
            _ => now,
        }
    }

    fn goes_down(&self, which: Which) -> bool {
        which == Which::Main || *self == Slip::AuxiliaryGoesDown
    }

    fn next_y(&self, y: u8) -> u8 {
        moves::next_y(*self, y)
    }

    fn ends(&self, source: usize, destination: usize) -> bool {
        source == 39 || (destination == 39 && *self != Slip::StopAtSourceAlone)
    }

    fn refuses_while_busy(&self) -> bool {
        *self != Slip::BusyForgotten
    }

    fn register_marks(
        &self,
        register: Indirect,
        before: Option<Mode>,
        after: Option<Mode>,
    ) -> bool {
        match (self, register) {
            (Slip::DorForgotten, Indirect::Dor) => false,
            (Slip::MatForgotten, Indirect::Mat) => false,
            (Slip::MatMarksForty, Indirect::Mat) => after.is_some(),
            (Slip::ModeForgotten, Indirect::Tgs) => before == after,
            _ => marks::by_register(register, after),
        }
    }

    fn phase_marks(&self, page: &Page, row: usize) -> bool {
        match (self, page.mode) {
            (Slip::PhaseForgotten, Mode::Forty) => false,
            (Slip::FlashForgottenInEighty, Mode::Eighty) => false,
            (Slip::MosaicsFlash, Mode::Eighty) => page.codes(row).any(has_bit_2),
            (Slip::Dor7Forgotten, _) => marks::by_phase(&ts9347::without_dor_7(page), row),
            _ => marks::by_phase(page, row),
        }
    }

    fn attributes(&self, packed: u8, r3: u8, odd: bool) -> u8 {
        match self {
            Slip::WholeAttributesStored => r3,
            Slip::NibbleFromOtherHalf => with_nibble(packed, r3.rotate_left(4), odd),
            _ => with_nibble(packed, r3, odd),
        }
    }
}

fn has_bit_2(code: Code) -> bool {
    code.nibble >> 2 & 1 == 1
}

/// A list with only the slices of the cells that `keeps` keeps, and with its own way upward.
fn list_of(
    page: &Page,
    row: usize,
    keeps: fn(Cell) -> bool,
    upward: fn(&Page, usize) -> Vec<usize>,
) -> Vec<usize> {
    let mut list = code_places(page, row);
    for cell in page.cells(row).filter(|cell| keeps(*cell)) {
        list.extend(slice_places(page, cell));
    }
    list.extend(upward(page, row));
    list
}

fn one_row_upward(page: &Page, row: usize) -> Vec<usize> {
    if row == 0 || !has_double_height(page, row) {
        return Vec::new();
    }
    code_places(page, row - 1)
}

/// The 120 places of a row with A taken from block Z + 2, which may leave the district.
fn code_places_of_next_district(page: &Page, row: usize) -> Vec<usize> {
    let (y, third) = (
        screen_y(page.ror, row),
        (page.first + 2) % page.board.part.named_blocks(),
    );
    let mut list = Vec::new();
    for column in 0..COLUMNS {
        list.extend(page.code_address(row, column, 0).fitted());
        list.extend(page.code_address(row, column, 1).fitted());
        list.extend(address(column, y, third, page.board.blocks).fitted());
    }
    list
}

fn with_next_district(page: &Page, row: usize) -> Vec<usize> {
    let mut list = code_places_of_next_district(page, row);
    for cell in page.cells(row) {
        list.extend(slice_places(page, cell));
    }
    let mut at = row;
    while at != 0 && has_double_height(page, at) {
        at -= 1;
        list.extend(code_places_of_next_district(page, at));
    }
    list
}

/// Whether all three blocks of the page's codes are fitted.
fn is_fitted(page: &Page) -> bool {
    (0..3).all(|byte| fitted(code_block(page.first, byte), page.board.blocks))
}

/// The right list, and the places of the row's codes in the blocks modulo those that there are.
fn with_mirrors(page: &Page, row: usize) -> Vec<usize> {
    let mut list = places(page, row);
    for byte in 0..3 {
        let block = code_block(page.first, byte) % page.board.blocks;
        let y = screen_y(page.ror, row);
        list.extend((0..COLUMNS).map(|column| place(column, y, block)));
    }
    list
}
