//! The demonstration page of 80 columns: every access is accepted, the picture is kept, only the tank's
//! litres flash, and the picture in the documents is the one that is drawn.

#[path = "pages/checks.rs"]
mod checks;
#[path = "pages/documents.rs"]
mod documents;

use std::ops::Range;

use binturamis::{Board, Panel, Width, ROWS};
use snapshot::panel::{play, width};
use snapshot::raster::Raster;
use snapshot::recipes::page;

/// The row of the recipe that runs, and the positions of its field that flashes.
const RUNNING: usize = 6;
const FLASHING: Range<usize> = 69..79;

fn panel() -> Panel {
    let (rom, _) = rom::narrow().expect("the texts are right");
    let mut panel = Panel::new(rom);
    let played = play(&mut panel, &page());
    assert_eq!(played.refused, 0, "{:?}", played.first);
    panel
}

/// The colours of a cell, line by line, six to each.
fn cell(raster: &Raster, row: usize, position: usize) -> Vec<u8> {
    let lines = (0..10).map(|line| 10 * row + line);
    let columns = 6 * position..6 * position + 6;
    let places = lines.flat_map(|line| columns.clone().map(move |column| (column, line)));
    places
        .map(|(column, line)| raster.at(column, line).number())
        .collect()
}

#[test]
fn every_access_is_accepted_and_every_row_drawn_once() {
    assert_eq!(width(Board::Sixteen, &page(), 0), Width::Eighty);
    let mut panel = panel();
    let redrawn = panel.draw().expect("a right page");
    assert_eq!((redrawn.count(), redrawn.width()), (25, Width::Eighty));
    let picture = panel.picture().to_vec();
    assert_eq!(picture.len(), 60_000);
    assert_eq!(panel.draw().expect("a right page").count(), 0);
    assert!(panel.picture() == picture);
}

#[test]
fn the_phase_changes_the_litres_alone() {
    let mut panel = panel();
    panel.draw().expect("a right page");
    let shown = Raster::of_panel(&panel);
    panel.turn(1).expect("a right phase");
    assert!(panel.draw().expect("a right page").rows().eq([RUNNING]));
    let hidden = Raster::of_panel(&panel);
    for row in 0..ROWS {
        for position in 0..80 {
            let is_changed = cell(&shown, row, position) != cell(&hidden, row, position);
            let may_change = row == RUNNING && FLASHING.contains(&position);
            assert!(may_change || !is_changed, "row {row}, position {position}");
        }
    }
    let is_black = |raster: &Raster| {
        let mut field = FLASHING;
        field.all(|position| cell(raster, RUNNING, position) == [0; 60])
    };
    assert!(!is_black(&shown));
    assert!(is_black(&hidden), "nothing is left of it");
    panel.turn(0).expect("a right phase");
    assert_eq!(panel.draw().expect("a right page").count(), 1);
    assert_eq!(Raster::of_panel(&panel), shown);
}

/// What the page is to show: rules, underlined headings, a negative field and one that flashes.
#[test]
fn every_kind_of_cell_is_on_the_page() {
    let panel = panel();
    let memory = panel.memory();
    // Row 0 is at Y 0 and the others are from Y 8 on, in the blocks from 0 on.
    let ys = [0].into_iter().chain(8..32);
    let places = ys.flat_map(|y| (0..40).map(move |x| second::address::place(x, y, 0)));
    let codes = places.flat_map(|place| {
        let attributes = memory[place + 2048];
        [
            (memory[place], attributes >> 4),
            (memory[place + 1024], attributes & 15),
        ]
    });
    let mut counts = [0; 5];
    for (c, nibble) in codes {
        let is_mosaic = c >= 0x80;
        counts[0] += usize::from(is_mosaic);
        for bit in 0..4 {
            counts[1 + bit] += usize::from(!is_mosaic && nibble >> bit & 1 == 1);
        }
    }
    let [mosaics, high, underlined, flashing, negative] = counts;
    assert!(mosaics > 300 && high > 100, "{counts:?}");
    assert_eq!(underlined, "NoCropDressingRateWatert/hLitres".len());
    assert_eq!(flashing, FLASHING.len());
    assert!(negative > 80, "{counts:?}");
}

#[test]
fn the_second_program_draws_the_same() {
    checks::the_second_program_draws_the_same(panel(), &page());
}

#[test]
fn the_page_does_not_depend_on_what_memory_held() {
    let (rom, _) = rom::narrow().expect("the texts are right");
    checks::the_page_does_not_depend_on_what_memory_held(Board::Sixteen, &rom, &page());
}

#[test]
fn the_picture_in_the_documents_is_the_one_drawn() {
    documents::the_picture_in_the_documents_is_the_one_drawn(panel(), "demo80.png");
}

#[test]
fn the_program_writes_the_accesses() {
    checks::the_program_writes_the_accesses(&["80"], &page());
}
