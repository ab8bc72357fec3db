//! Pages of the TS9347: fresh ones, partial redraws, and each B byte. The library draws what the second
//! program draws.

use binturamis::Refusal;
use compare::difference::assert_same;
use compare::page::{pages, Page};
use compare::seen::{SeenTs9347, BELOW_UNMARKED};
use second::address::{code_block, place};
use second::page::screen_y;
use second::{Board, Mode, COLUMNS};

use crate::drawn::{draw, marked, shown, wanted};

fn compare_pages(pages: u64, page_of: fn(Board, Mode, u64) -> Page) -> Result<SeenTs9347, Refusal> {
    let mut seen = SeenTs9347::default();
    for seed in 0..pages {
        let mut page = page_of(Board::TS9347, Mode::Forty, seed);
        compare_page(&mut page)?;
        seen.look(&page);
    }
    println!("pages of the TS9347 compared: {pages}\n{seen}");
    Ok(seen)
}

fn compare_page(page: &mut Page) -> Result<(), Refusal> {
    let processor = marked(&shown(page)?, |row| u8::from(page.marks[row]));
    let (redrawn, picture) = draw(processor, page)?;
    assert_same(page, &picture, &wanted(page));
    let rows = page.marked_rows().count();
    assert_eq!(usize::from(redrawn.count()), rows, "seed {}", page.seed);
    Ok(())
}

#[test]
fn fresh_pictures_of_the_ts9347_are_the_second_programs() -> Result<(), Refusal> {
    let seen = compare_pages(pages(1_600), Page::fresh_on)?;
    seen.assert_varied(5_000, &[BELOW_UNMARKED]);
    Ok(())
}

#[test]
fn only_marked_rows_of_the_ts9347_are_redrawn() -> Result<(), Refusal> {
    let seen = compare_pages(pages(1_600), Page::partly_marked_on)?;
    seen.assert_varied(1_000, &[]);
    Ok(())
}

/// The page's codes: with DOR 7 in blocks 24 to 26, else in 8 to 10. G'0 is in block 3, G'10 and G'11 in
/// blocks 4 and 5.
const ROR: u8 = 0x88;
const DOR: u8 = 0x23;

/// Squares of two by two equal cells, so that every half of a double height and of a double width cell is
/// shown: twenty in each two rows from row 1 on.
const SQUARES: usize = 12 * COLUMNS / 2;

/// A page with a square of each B from one on, all of them with the same C and A.
fn squares(first: usize, dor: u8, pat: u8, phase: u8, a: u8) -> Page {
    let mut page = Page {
        pat,
        dor,
        ror: ROR,
        phase,
        ..Page::fresh_on(Board::TS9347, Mode::Forty, 0)
    };
    let first_block = page.second().first_block();
    for square in 0..SQUARES {
        let (down, across) = (1 + 2 * (square / 20), 2 * (square % 20));
        let b = ((first + square) % 256) as u8;
        for (row, column) in [(0, 0), (0, 1), (1, 0), (1, 1)] {
            let (x, y) = (across + column, screen_y(ROR, down + row));
            for (byte, value) in [0x4B, b, a].into_iter().enumerate() {
                page.memory[place(x, y, code_block(first_block, byte))] = value;
            }
        }
    }
    page
}

#[test]
fn every_b_of_the_ts9347_is_drawn_as_the_second_program_has_it() -> Result<(), Refusal> {
    for first in [0, 128] {
        for dor in [DOR, 0x80 | DOR] {
            for (pat, phase) in [(0x00, 0), (0x7F, 0), (0x7F, 1)] {
                for a in [0x61, 0xE1, 0x69, 0xE9] {
                    compare_page(&mut squares(first, dor, pat, phase, a))?;
                }
            }
        }
    }
    Ok(())
}
