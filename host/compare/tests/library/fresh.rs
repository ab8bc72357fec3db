//! Fresh pictures: from power-up, with every row marked, the library draws what the second program
//! draws, whatever the picture was before.

use binturamis::Refusal;
use compare::difference::assert_same;
use compare::page::{pages, Page};
use compare::seen::{SeenEighty, SeenForty};
use second::Mode;

use crate::drawn::{draw, shown};

/// Compares so many pages of a mode, each of which is looked at too.
fn compare(mode: Mode, pages: u64, mut look: impl FnMut(&Page)) -> Result<(), Refusal> {
    for seed in 0..pages {
        let mut page = Page::fresh(mode, seed);
        let (redrawn, picture) = draw(shown(&mut page)?, &page)?;
        assert_same(&page, &picture, &page.fresh_picture());
        assert_eq!(redrawn.count(), 25, "the rows of seed {seed}");
        look(&page);
    }
    Ok(())
}

#[test]
fn fresh_pictures_are_the_second_programs() -> Result<(), Refusal> {
    let pages = pages(2_400);
    let mut seen = SeenForty::default();
    compare(Mode::Forty, pages, |page| seen.look(page))?;
    println!("pages of 40 columns compared: {pages}\n{seen}");
    seen.assert_varied(10_000, &["lower half below a row that is not marked"]);
    Ok(())
}

#[test]
fn fresh_pictures_of_80_columns_are_the_second_programs() -> Result<(), Refusal> {
    let pages = pages(1_600);
    let mut seen = SeenEighty::default();
    compare(Mode::Eighty, pages, |page| seen.look(page))?;
    println!("pages of 80 columns compared: {pages}\n{seen}");
    seen.assert_varied(10_000);
    Ok(())
}
