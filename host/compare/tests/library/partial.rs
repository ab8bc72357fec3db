//! Partial redraws: marked rows become the second program's rows, and every other byte stays. Any
//! rows may be marked, also those that no store would mark together, so the marks are put into the
//! bytes of the processor.

use binturamis::Refusal;
use compare::difference::assert_same;
use compare::page::{pages, Page};
use compare::seen::{SeenEighty, SeenForty};
use second::Mode;

use crate::drawn::{draw, marked, shown, wanted};

/// Compares so many pages of a mode, each of which is looked at too.
fn compare(mode: Mode, pages: u64, mut look: impl FnMut(&Page)) -> Result<(), Refusal> {
    for seed in 0..pages {
        let mut page = Page::partly_marked(mode, seed);
        let processor = marked(&shown(&mut page)?, |row| u8::from(page.marks[row]));
        let (redrawn, picture) = draw(processor, &page)?;
        assert_same(&page, &picture, &wanted(&page));
        let rows = page.marked_rows().count();
        assert_eq!(
            usize::from(redrawn.count()),
            rows,
            "the rows of seed {seed}"
        );
        look(&page);
    }
    Ok(())
}

#[test]
fn only_marked_rows_are_redrawn() -> Result<(), Refusal> {
    let pages = pages(2_400);
    let mut seen = SeenForty::default();
    compare(Mode::Forty, pages, |page| seen.look(page))?;
    println!("pages of 40 columns compared: {pages}\n{seen}");
    seen.assert_varied(1_000, &[]);
    Ok(())
}

#[test]
fn only_marked_rows_of_80_columns_are_redrawn() -> Result<(), Refusal> {
    let pages = pages(1_600);
    let mut seen = SeenEighty::default();
    compare(Mode::Eighty, pages, |page| seen.look(page))?;
    println!("pages of 80 columns compared: {pages}\n{seen}");
    seen.assert_varied(10_000);
    Ok(())
}

#[test]
fn any_byte_but_zero_marks_a_row() -> Result<(), Refusal> {
    for seed in 0..20 {
        let mode = [Mode::Forty, Mode::Eighty][seed as usize % 2];
        let mut page = Page::partly_marked(mode, seed);
        let processor = shown(&mut page)?;
        let of_ones = marked(&processor, |row| u8::from(page.marks[row]));
        let of_others = marked(&processor, |row| {
            u8::from(page.marks[row]) * [2, 0x10, 0x80, 0xFF][row % 4]
        });
        assert!(draw(of_ones, &page)? == draw(of_others, &page)?);
    }
    Ok(())
}
