//! Each of the 256 palettes: the library shows its four colours as the second program does, and as
//! request T-02 has them in words.

use binturamis::Refusal;
use compare::difference::assert_same;
use compare::page::Page;
use second::address::{code_block, place};
use second::page::screen_y;
use second::{Board, Mode, COLUMNS, LINES};

use crate::drawn::{draw, shown};

/// The page's codes are in blocks 0 to 2.
const ROR: u8 = 8;
/// Every byte of block 3 is this one: ranks 0, 1, 2 and 3 from the left.
const SLICE: u8 = 0xE4;
/// High resolution, slices in block 3.
const B: u8 = 0xD8;

/// Where the cell of a palette stands.
fn position(palette: u8) -> (usize, usize) {
    let palette = usize::from(palette);
    (palette / COLUMNS, palette % COLUMNS)
}

/// A page with a quadrichrome cell of every palette, all of one character.
fn page(character: u8) -> Page {
    let mut memory = vec![0; Board::SIXTEEN.memory()];
    memory[3 * 1024..4 * 1024].fill(SLICE);
    for palette in 0..=255 {
        let (row, column) = position(palette);
        for (byte, value) in [character, B, palette].into_iter().enumerate() {
            memory[place(column, screen_y(ROR, row), code_block(0, byte))] = value;
        }
    }
    Page {
        ror: ROR,
        dor: 0,
        memory,
        ..Page::fresh(Mode::Forty, 0)
    }
}

/// The picture that the library draws, which is the second program's.
fn drawn(mut page: Page) -> Result<Vec<u8>, Refusal> {
    let (_, picture) = draw(shown(&mut page)?, &page)?;
    assert_same(&page, &picture, &page.fresh_picture());
    Ok(picture)
}

/// "Missing ranks become colour 7 [..] and more than four set bits still give the lowest four."
fn four_colours(palette: u8) -> [u8; 4] {
    let mut colours = (0..8).filter(|colour| palette >> colour & 1 == 1);
    [(); 4].map(|()| colours.next().unwrap_or(7))
}

/// Fails where a line of the palette's cell has other colours than these, two pixels of each.
fn assert_shows(picture: &[u8], palette: u8, colours: [u8; 4]) {
    let (row, column) = position(palette);
    for line in 0..LINES {
        let at = Mode::Forty.row() * row + Mode::Forty.line() * line + 4 * column;
        let wanted = colours.map(|colour| 0x11 * colour);
        assert_eq!(picture[at..at + 4], wanted, "palette {palette:02X}");
    }
}

#[test]
fn a_palettes_ranks_are_its_lowest_four_colours_and_then_white() -> Result<(), Refusal> {
    let picture = drawn(page(0x4B))?;
    for palette in 0..=255 {
        assert_shows(&picture, palette, four_colours(palette));
    }
    Ok(())
}

#[test]
fn slices_that_are_not_legal_show_rank_0_white_where_it_is_missing() -> Result<(), Refusal> {
    let picture = drawn(page(0x10))?;
    for palette in 0..=255 {
        let [lowest, ..] = four_colours(palette);
        assert_shows(&picture, palette, [lowest; 4]);
    }
    Ok(())
}
