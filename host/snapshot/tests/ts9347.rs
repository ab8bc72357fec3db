//! The demonstration page of 40 columns of a TS9347: every access is accepted, its text stands in the upper
//! half of the memory and is the one that an EF9345 shows, only the alarm flashes, and the second program draws
//! the same.

#[path = "pages/checks.rs"]
mod checks;

use std::collections::BTreeSet;

use binturamis::{Board, Panel, BLOCK_BYTES, ROWS};
use snapshot::colour::Colour;
use snapshot::panel::play;
use snapshot::raster::Raster;
use snapshot::{demonstration, two_colours};

const COLUMNS: usize = 40;

/// The blocks of C, B and A.
const PAGE: [usize; 3] = [16, 17, 18];

/// The rows of the alarm.
const ALARM: [usize; 2] = [20, 21];

fn rom() -> [u8; 3_840] {
    rom::ts9347::demonstration().expect("the texts are right").0
}

fn panel() -> Panel {
    let page = demonstration::ts9347();
    let mut panel = Panel::with_board(Board::ThirtyTwo, &rom()).expect("the ROM is the part's");
    let played = play(&mut panel, &page);
    assert_eq!(played.refused, 0, "{:?}", played.first);
    assert_eq!(played.accesses, page.len());
    panel
}

/// The page of an EF9345, drawn.
fn of_ef9345() -> Panel {
    let (rom, _) = rom::demonstration().expect("the texts are right");
    let mut panel = Panel::new(rom);
    play(&mut panel, &demonstration::page());
    panel.draw().expect("a right page");
    panel
}

/// The code bytes of a cell, as they stand in memory: row 0 is at Y 0, and row 1 at Y 8.
fn code(panel: &Panel, row: usize, column: usize) -> [u8; 3] {
    let y = if row == 0 { 0 } else { row + 7 };
    let place = second::address::place(column, y, 0);
    PAGE.map(|block| panel.memory()[BLOCK_BYTES * block + place])
}

/// The text of a row: what the cells of G0 have as characters, double ones once, and a space for all others.
fn text(panel: &Panel, row: usize) -> String {
    let mut text = String::new();
    for column in 0..COLUMNS {
        let [c, b, _] = code(panel, row, column);
        let is_second_half = b & 0x08 != 0 && column % 2 == 0;
        match b & 0xA0 {
            _ if is_second_half => {}
            0 => text.push(char::from(c)),
            _ => text.push(' '),
        }
    }
    text.trim_end().to_string()
}

#[test]
fn every_access_is_accepted_and_every_row_drawn_once() {
    let mut panel = panel();
    assert_eq!(panel.draw().expect("a right page").count(), 25);
    let picture = panel.picture().to_vec();
    assert_eq!(panel.draw().expect("a right page").count(), 0);
    assert!(panel.picture() == picture);
}

#[test]
fn the_text_of_the_page_stands_in_the_upper_half_of_the_memory() {
    let panel = panel();
    for (row, wanted) in [
        (0, " Line 2      AUTO   Running    14:32:07"),
        (5, "  Seed      Winter wheat"),
        // ü is character 08 of G0.
        (6, "  Grower    M\u{8}ller"),
        (8, "  Rate      200 ml/100 kg"),
        (9, "  Rate      200 ml/100 kg"),
        (13, ""),
        (16, "  Hopper                        62 %"),
        (20, "  ALARM  Dressing tank low: 12 litres"),
        (24, " F1 Stop   F2 Batch  F3 Alarm  F4 Menu"),
    ] {
        assert_eq!(text(&panel, row), wanted, "row {row}");
    }
    let title = [1, 2].map(|row| text(&panel, row));
    assert!(title.iter().all(|title| title.trim() == "SEED DRESSING"));
    // The lower half has the slices of Q3, in block 11, and nothing else.
    let used = |block: usize| {
        let bytes = &panel.memory()[BLOCK_BYTES * block..][..BLOCK_BYTES];
        bytes.iter().any(|byte| *byte != 0)
    };
    assert!((0..16).filter(|block| used(*block)).eq([11]));
    assert!((16..32).filter(|block| used(*block)).eq(PAGE));
}

/// Every cell of the demonstration ROM's characters looks as on the EF9345; those of the drum have the same
/// dots, in two colours a cell.
#[test]
fn the_page_looks_as_on_an_ef9345_but_for_the_colours_of_the_drum() {
    let mut panel = panel();
    panel.draw().expect("a right page");
    let [ours, theirs] = [&panel, &of_ef9345()].map(Raster::of_panel);
    let mut of_drum = 0;
    for (row, column) in (0..ROWS).flat_map(|row| (0..COLUMNS).map(move |column| (row, column))) {
        let is_drum = code(&panel, row, column)[1] & 0xC0 == 0xC0;
        of_drum += usize::from(is_drum);
        let lines = 10 * row..10 * row + 10;
        for (line, pixel) in
            lines.flat_map(|line| (8 * column..8 * column + 8).map(move |pixel| (line, pixel)))
        {
            let (our, their) = (ours.at(pixel, line), theirs.at(pixel, line));
            match is_drum {
                false => assert_eq!(our, their, "row {row}, column {column}"),
                true => assert_eq!(our == Colour::Black, their == Colour::Black),
            }
        }
    }
    assert!(of_drum > 40, "{of_drum} cells");
}

/// All three sets of the ROM, user cells of Q, and each attribute.
#[test]
fn every_kind_of_cell_is_on_the_page() {
    let panel = panel();
    let places = (0..ROWS).flat_map(|row| (0..COLUMNS).map(move |column| (row, column)));
    let codes: Vec<[u8; 3]> = places
        .map(|(row, column)| code(&panel, row, column))
        .collect();
    let types: BTreeSet<u8> = codes.iter().map(|[_, b, _]| b >> 4).collect();
    let wanted = [0x0, 0x1, 0x2, 0x3, 0xD];
    assert!(types.into_iter().eq(wanted), "G0, underlined, G10, GOE, Q3");
    for (name, bit) in [("double width", 0x08), ("double height", 0x02)] {
        let of_rom = |[_, b, _]: &[u8; 3]| b & 0x80 == 0 && b & bit != 0;
        assert!(codes.iter().any(of_rom), "{name}");
    }
    assert!(codes.iter().any(|[_, _, a]| a & 0x08 != 0), "flash");
}

#[test]
fn the_phase_changes_the_alarm_alone() {
    let mut panel = panel();
    panel.draw().expect("a right page");
    let shown = panel.picture().to_vec();
    panel.turn(1).expect("a right phase");
    let redrawn = panel.draw().expect("a right page");
    assert!(redrawn.rows().eq(ALARM));
    for row in ALARM {
        // Nothing of the text is left: both rows are red.
        assert!(panel.row(row).iter().all(|pair| *pair == 0x11));
    }
    panel.turn(0).expect("a right phase");
    assert_eq!(panel.draw().expect("a right page").count(), 2);
    assert!(panel.picture() == shown);
}

#[test]
fn the_second_program_draws_the_same() {
    checks::the_second_program_draws_the_same(panel(), &demonstration::ts9347());
}

#[test]
fn the_page_does_not_depend_on_what_memory_held() {
    let page = demonstration::ts9347();
    checks::the_page_does_not_depend_on_what_memory_held(Board::ThirtyTwo, &rom(), &page);
}

#[test]
fn the_program_writes_the_accesses() {
    checks::the_program_writes_the_accesses(&["40", "ts9347"], &demonstration::ts9347());
}

#[test]
fn a_drawing_becomes_one_colour_on_black_a_cell() {
    let drawing = format!("....rycc\n....r..c\n{}", "....rr..\n".repeat(8));
    let symbols = two_colours::symbols(&drawing).expect("a right drawing");
    assert_eq!(symbols.len(), 1, "the black cell is left out");
    assert_eq!((symbols[0].row, symbols[0].column), (0, 1));
    assert_eq!(symbols[0].foreground, Colour::Red);
    let [first, second, others @ ..] = symbols[0].slices;
    assert_eq!((first, second, others), (0xFF, 0xC3, [0x0F; 8]));
    // Of two colours that as many dots have, the one that comes later.
    let halves = two_colours::symbols(&"bbrr\n".repeat(10)).expect("a right drawing");
    assert_eq!(halves[0].foreground, Colour::Blue);
}
