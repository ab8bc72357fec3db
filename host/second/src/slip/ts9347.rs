//! The wrong rules of the TS9347: its pointers, its page and its cells.

use crate::bichrome::{bit_of_pixel, slices_of_lines, slices_of_twenty_lines};
use crate::board::Board;
use crate::forty::Window;
use crate::half::{shows_lower, shows_right};
use crate::page::Page;
use crate::part::Part;
use crate::picture::{row_of, View};
use crate::pointer::{Pointer, Which};
use crate::set::Set;
use crate::COLUMNS;

use super::Slip;

pub fn without_z4(pointer: Pointer) -> Pointer {
    Pointer {
        z: pointer.z % 16,
        ..pointer
    }
}

pub fn with_z3_in_r6(pointer: Pointer, registers: &[u8; 8], which: Which) -> Pointer {
    let z3 = usize::from(registers[6] >> 6 & 1);
    match which {
        Which::Main => pointer,
        Which::Auxiliary => Pointer {
            z: 16 * (pointer.z / 16) + 8 * z3 + pointer.z % 8,
            ..pointer
        },
    }
}

/// The page in the blocks that ROR names by itself.
pub fn without_dor_7<'a>(page: &Page<'a>) -> Page<'a> {
    Page {
        first: page.first % 16,
        ..*page
    }
}

/// The row that the slip draws.
pub fn row(slip: Slip, view: &View, row: usize) -> Vec<u8> {
    match slip {
        Slip::Dor7Forgotten => {
            let page = without_dor_7(&view.page);
            View { page, ..*view }.row(row)
        }
        Slip::RomInOldOrder => {
            let rom = in_old_order(view.rom);
            View { rom: &rom, ..*view }.row(row)
        }
        _ => row_of((0..COLUMNS).map(|column| window(slip, view, row, column))),
    }
}

/// A ROM that is G0, G10 and GOE, in the order in which the right rules look for G10, GOE and G0.
fn in_old_order(rom: &[u8]) -> Vec<u8> {
    let (g0, others) = rom.split_at(1_280);
    [others, g0].concat()
}

fn window(slip: Slip, view: &View, row: usize, column: usize) -> Window {
    let set = view.page.cell(row, column).set();
    match (slip, set) {
        (Slip::QuadrichromeQ, Some(Set::Q)) => quadrichrome(view, row, column),
        (Slip::DoubleWidthQ, Some(Set::Q)) => double_width(view, row, column),
        (Slip::AlphanumericGoe, Some(Set::Goe)) => alphanumeric(view, row, column),
        _ => view.window(row, column),
    }
}

/// The cell as the EF9345 has it.
fn quadrichrome(view: &View, row: usize, column: usize) -> Window {
    let board = Board {
        part: Part::Ef9345,
        ..view.page.board
    };
    let page = Page { board, ..view.page };
    View { page, ..*view }.window(row, column)
}

/// The left half where B3 is set.
fn double_width(view: &View, row: usize, column: usize) -> Window {
    let cell = view.page.cell(row, column);
    let slices = slices_of_lines(cell, shows_lower(&view.page, row, column));
    match cell.b >> 3 & 1 {
        0 => view.window(row, column),
        _ => view.two_colours(cell, &slices, [0, 0, 1, 1, 2, 2, 3, 3]),
    }
}

/// Slice 0 three times and slice 9 once, where it is double height.
fn alphanumeric(view: &View, row: usize, column: usize) -> Window {
    let cell = view.page.cell(row, column);
    if !cell.is_double_height() {
        return view.window(row, column);
    }
    let from = if shows_lower(&view.page, row, column) {
        10
    } else {
        0
    };
    let slices = &slices_of_twenty_lines(true)[from..from + 10];
    let right = shows_right(&view.page, row, column);
    let bits = [0, 1, 2, 3, 4, 5, 6, 7].map(|pixel| bit_of_pixel(cell, right, pixel));
    view.two_colours(cell, slices, bits)
}
