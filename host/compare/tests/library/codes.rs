//! Each of the 4,096 codes of 80 columns, at even positions and at odd ones, in both phases and with
//! flash and without: the library draws it as the second program does, and as the readings of request
//! T-01 have it in words.

use binturamis::Refusal;
use compare::difference::assert_same;
use compare::page::Page;
use second::address::place;
use second::page::screen_y;
use second::{Board, Mode, LINES, POSITIONS, ROWS};

use crate::drawn::{draw, shown};

/// The page's codes are in blocks 0 to 2.
const ROR: u8 = 8;
/// Three colours that differ: red where D is 0, green where it is 1, and blue.
const DOR: u8 = 0x21;
const MAT: u8 = 0x04;

/// The cells of a page.
const CELLS: usize = ROWS * POSITIONS;
/// One page more than the codes fill, so that they begin at the other kind of position once.
const PAGES: usize = 5;

/// The code of a cell: they follow each other from page to page, and begin anew one position on, so
/// that each is met at an even position and at an odd one.
fn code_at(page: usize, cell: usize) -> (u8, u8) {
    let number = CELLS * page + cell;
    let code = (number + number / 4096) % 4096;
    ((code / 16) as u8, (code % 16) as u8)
}

fn page(number: usize, pat: u8, phase: u8) -> Page {
    let mut memory = vec![0; Board::SIXTEEN.memory()];
    for cell in 0..CELLS {
        let (row, position) = (cell / POSITIONS, cell % POSITIONS);
        let (c, nibble) = code_at(number, cell);
        let (x, y) = (position / 2, screen_y(ROR, row));
        memory[place(x, y, position % 2)] = c;
        // The high nibble is the even position's.
        memory[place(x, y, 2)] |= nibble << (4 - 4 * (position % 2));
    }
    Page {
        tgs: 0xC0,
        mat: MAT,
        pat,
        dor: DOR,
        ror: ROR,
        phase,
        memory,
        ..Page::fresh(Mode::Eighty, 0)
    }
}

/// The bit that a pixel of a character shows: the slice's, then underline, flash and negative.
fn bit_of_character(page: &Page, c: u8, nibble: u8, line: usize, pixel: usize) -> bool {
    let [underline, flash, negative] = [1, 2, 3].map(|bit| nibble >> bit & 1 == 1);
    let slice = page.rom[10 * usize::from(c) + line];
    let bit = slice >> pixel & 1 == 1 || (underline && line == 9);
    let is_hidden = flash && page.pat & 0x40 != 0 && (page.phase == 1) != negative;
    (bit && !is_hidden) != negative
}

/// The bit that a pixel of a mosaic shows: that of its window.
fn bit_of_mosaic(c: u8, nibble: u8, line: usize, pixel: usize) -> bool {
    let windows = u16::from(c % 128) + 128 * u16::from(nibble / 2);
    windows >> (2 * (line / 2) + pixel / 3) & 1 == 1
}

fn colour(page: &Page, (c, nibble): (u8, u8), line: usize, pixel: usize) -> u8 {
    let bit = match c / 128 {
        0 => bit_of_character(page, c, nibble, line, pixel),
        _ => bit_of_mosaic(c, nibble, line, pixel),
    };
    match (bit, nibble % 2) {
        (false, _) => 4,
        (true, 0) => 1,
        (true, _) => 2,
    }
}

/// Fails where a cell has other pixels than the words say.
fn assert_in_words(page: &Page, number: usize, picture: &[u8]) {
    for cell in 0..CELLS {
        let (row, position) = (cell / POSITIONS, cell % POSITIONS);
        let code = code_at(number, cell);
        for line in 0..LINES {
            let at = 2_400 * row + 240 * line + 3 * position;
            let colours: [u8; 6] = std::array::from_fn(|pixel| colour(page, code, line, pixel));
            let wanted = [0, 2, 4].map(|left| colours[left] + 16 * colours[left + 1]);
            assert_eq!(picture[at..at + 3], wanted, "{code:02X?}, line {line}");
        }
    }
}

#[test]
fn every_code_is_met_at_both_kinds_of_position() {
    let mut met = [[false; 2]; 4096];
    for page in 0..PAGES {
        for cell in 0..CELLS {
            let (c, nibble) = code_at(page, cell);
            met[16 * usize::from(c) + usize::from(nibble)][cell % 2] = true;
        }
    }
    assert!(met.iter().flatten().all(|is_met| *is_met));
}

#[test]
fn every_code_is_drawn_as_the_rules_have_it() -> Result<(), Refusal> {
    for number in 0..PAGES {
        for (pat, phase) in [(0x00, 0), (0x00, 1), (0x7F, 0), (0x7F, 1)] {
            let mut page = page(number, pat, phase);
            let (_, picture) = draw(shown(&mut page)?, &page)?;
            assert_same(&page, &picture, &page.fresh_picture());
            assert_in_words(&page, number, &picture);
        }
    }
    Ok(())
}
