//! The accesses of the writer of 40 columns, literally and by what they store on either part, and the cells
//! of a quadrichrome drawing.

use binturamis::{Board, Panel, ROM_BYTES, TS9347_ROM_BYTES};
use rom::{ts9347, Set};
use snapshot::access::{of_bytes, to_bytes, Access};
use snapshot::code::{Code, Look};
use snapshot::colour::Colour;
use snapshot::panel::play;
use snapshot::quadrichrome::symbols;
use snapshot::registers::Registers;
use snapshot::writer::Writer;

fn written(write: impl Fn(&mut Writer)) -> Vec<(u8, u8)> {
    let mut writer = Writer::of(Registers::new());
    write(&mut writer);
    let accesses = writer.accesses().into_iter();
    accesses
        .map(|access| (access.address, access.value))
        .collect()
}

/// A panel after some writing, all of it accepted.
fn panel(write: impl Fn(&mut Writer)) -> Panel {
    let mut writer = Writer::of(Registers::new());
    write(&mut writer);
    let mut panel = Panel::new([0; ROM_BYTES]);
    let played = play(&mut panel, &writer.accesses());
    assert_eq!(played.refused, 0, "{:?}", played.first);
    panel
}

#[test]
fn cells_go_on_with_one_write_where_only_the_character_differs() {
    let look = Look::of(Colour::White, Colour::Black);
    let accesses = written(|writer| {
        writer.at(1, 38);
        writer.cell(Code::bichrome(Set::G0, 0x41, look));
        writer.cell(Code::bichrome(Set::G0, 0x42, look));
    });
    let pointer = [(0x26, 8), (0x27, 38)];
    let cells = [
        (0x20, 0x01),
        (0x22, 0x00),
        (0x23, 0x70),
        (0x29, 0x41),
        (0x29, 0x42),
    ];
    assert_eq!(accesses, [&pointer[..], &cells[..]].concat());
}

#[test]
fn cells_are_stored_where_the_page_has_them() {
    let look = Look::of(Colour::Yellow, Colour::Blue);
    let panel = panel(|writer| {
        for (row, column) in [(0, 0), (0, 39), (1, 0), (1, 39), (24, 39)] {
            writer.at(row, column);
            writer.cell(Code::bichrome(Set::G0, 0x42, look.flashing()));
        }
    });
    // Y 0 and X 0 and 39; Y 8, X 0 and 39; Y 31, X 39.
    for place in [0, 39, 256, 71, 255] {
        let memory = panel.memory();
        let code = [0, 1024, 2048].map(|block| memory[block + place]);
        assert_eq!(code, [0x42, 0x00, 0x3C], "place {place}");
    }
    assert_eq!(panel.memory().iter().filter(|byte| **byte != 0).count(), 10);
}

/// After the last column the pointer stands at the first one of the same row, and is not set anew.
#[test]
fn a_whole_row_ends_where_it_began() {
    let look = Look::of(Colour::White, Colour::Black);
    let panel = panel(|writer| {
        writer.at(0, 0);
        (0..40).for_each(|c| writer.cell(Code::bichrome(Set::G0, c, look)));
        writer.at(0, 0);
        writer.cell(Code::bichrome(Set::G0, 0x7F, look));
    });
    assert_eq!(panel.memory()[0], 0x7F);
    assert!(panel.memory()[1..40].iter().copied().eq(1..40));
}

#[test]
fn slices_are_stored_where_the_rules_have_them() {
    let slices = [1, 2, 3, 4, 5, 6, 7, 8, 9, 10];
    let panel_of = |block| panel(|writer| writer.slices(block, 0x4B, &slices));
    let panel = panel_of(3);
    let memory = panel.memory();
    assert_eq!((memory[3651], memory[3223]), (1, 10));
    assert_eq!(memory.iter().filter(|byte| **byte != 0).count(), 10);
    // Block 13 has Z3, Z2 and Z0 set.
    let panel = panel_of(13);
    let memory = panel.memory();
    assert_eq!(
        (memory[3651 + 10 * 1024], memory[3223 + 10 * 1024]),
        (1, 10)
    );
}

/// A row is copied by MVT, from the main pointer to the auxiliary one, and the writing goes on where it was.
#[test]
fn a_row_is_copied_by_a_move() {
    let accesses = written(|writer| {
        writer.copy_row(3, 2);
        writer.copy_row(4, 3);
    });
    let wanted = [
        (0x26, 0x00),
        (0x24, 9),
        (0x25, 0),
        (0x26, 10),
        (0x27, 0),
        (0x28, 0xF5),
        (0x24, 10),
        (0x26, 11),
        (0x28, 0xF5),
    ];
    assert_eq!(accesses, wanted);
    let look = Look::of(Colour::Yellow, Colour::Blue);
    let panel = panel(|writer| {
        writer.at(3, 38);
        writer.cell(Code::bichrome(Set::G0, 0x41, look));
        writer.slices(8, 0x20, &[0x5A; 10]);
        writer.copy_row(3, 0);
        writer.slices(8, 0x21, &[0x5A; 10]);
    });
    let memory = panel.memory();
    let cells = [0, 1024, 2048].map(|block| (memory[block + 38], memory[block + 86]));
    assert_eq!(cells, [(0x41, 0x41), (0x00, 0x00), (0x34, 0x34)]);
    assert_eq!(memory[8 * 1024 + 256], 0x5A);
    assert_eq!(memory[8 * 1024 + 257], 0x5A);
}

#[test]
#[should_panic(expected = "a TS9347 has no moves")]
fn a_ts9347_copies_no_row() {
    Writer::of_ts9347(Registers::new(), 16).copy_row(3, 2);
}

/// R6 has the main pointer's Y and the auxiliary pointer's Z3.
#[test]
fn the_two_pointers_do_not_disturb_each_other() {
    let look = Look::of(Colour::White, Colour::Black);
    let cell = Code::bichrome(Set::G0, 0x41, look);
    let panel = panel(|writer| {
        writer.at(1, 0);
        writer.slices(8, 0x20, &[0xFF; 10]);
        writer.cell(cell);
        writer.at(2, 0);
        writer.slices(0, 0x7F, &[0xEE; 10]);
    });
    let memory = panel.memory();
    assert_eq!(memory[256], 0x41);
    assert_eq!(memory[8 * 1024 + 256], 0xFF);
    assert_eq!(memory[32 * 31 + 3], 0xEE);
}

/// A TS9347 after some writing on a page from a block on, all of it accepted.
fn ts9347_panel(page: u8, write: impl Fn(&mut Writer)) -> Panel {
    let mut writer = Writer::of_ts9347(Registers::new(), page);
    write(&mut writer);
    let panel = Panel::with_board(Board::ThirtyTwo, &[0; TS9347_ROM_BYTES]);
    let mut panel = panel.expect("the ROM is the part's");
    let played = play(&mut panel, &writer.accesses());
    assert_eq!(played.refused, 0, "{:?}", played.first);
    panel
}

/// Rows and columns as on the other part, in each block where a page can begin. The writer goes on to the next
/// column by itself.
#[test]
fn cells_of_a_ts9347_are_stored_where_its_page_has_them() {
    let look = Look::of(Colour::Yellow, Colour::Blue);
    for page in (0..32).step_by(2) {
        let panel = ts9347_panel(page, |writer| {
            for row in [0, 1, 24] {
                writer.at(row, 38);
                for c in [0x41, 0x42, 0x43] {
                    writer.cell(Code::of_ts9347(ts9347::Set::Goe, c, look));
                }
            }
        });
        // X 38, 39 and then 0, at Y 0, 8 and 31.
        let places = [[38, 39, 0], [70, 71, 256], [254, 255, 32 * 31]].concat();
        for (place, c) in places.into_iter().zip([0x41, 0x42, 0x43].repeat(3)) {
            let district = usize::from(page / 4 * 4);
            let block = |further: u8| 1024 * (district + usize::from((page + further) % 4));
            let code = [0, 1, 2].map(|further| panel.memory()[block(further) + place]);
            assert_eq!(code, [c, 0x30, 0x34], "block {page}, place {place}");
        }
        let stored = panel.memory().iter().filter(|byte| **byte != 0);
        assert_eq!(stored.count(), 27);
    }
}

/// The auxiliary pointer has all its bits in R4 and R5, and the main one stays where it is.
#[test]
fn slices_of_a_ts9347_are_stored_in_every_block() {
    let slices = [1, 2, 3, 4, 5, 6, 7, 8, 9, 10];
    let look = Look::of(Colour::White, Colour::Black);
    for block in 0..32 {
        let panel = ts9347_panel(16, |writer| {
            writer.at(1, 0);
            writer.slices(block, 0x4B, &slices);
            writer.cell(Code::of_ts9347(ts9347::Set::G0, 0x41, look));
        });
        let first = 1024 * usize::from(block) + 3651 - 3072;
        let last = 1024 * usize::from(block) + 3223 - 3072;
        assert_eq!((panel.memory()[first], panel.memory()[last]), (1, 10));
        assert_eq!(panel.memory()[16 * 1024 + 256], 0x41);
    }
}

#[test]
fn codes_of_a_ts9347_have_the_bits_of_its_table() {
    let look = Look::of(Colour::Red, Colour::Cyan);
    let code = |set, look| Code::of_ts9347(set, 0x21, look);
    let wanted = |b, a| Code { c: 0x21, b, a };
    assert_eq!(code(ts9347::Set::G0, look), wanted(0x00, 0x16));
    assert_eq!(code(ts9347::Set::G0, look.underlined()), wanted(0x10, 0x16));
    assert_eq!(code(ts9347::Set::G10, look), wanted(0x20, 0x16));
    assert_eq!(code(ts9347::Set::Goe, look), wanted(0x30, 0x16));
    assert_eq!(code(ts9347::Set::G0, look.wide()), wanted(0x08, 0x16));
    assert_eq!(code(ts9347::Set::Goe, look.tall()), wanted(0x32, 0x16));
    let of_q = |q, look| Code::of_user_set_q(q, 0x21, look);
    assert_eq!(of_q(0, look), wanted(0xC0, 0x16));
    assert_eq!(of_q(7, look.tall().flashing()), wanted(0xFA, 0x1E));
    // Q2 has no bit for double width: it would be Q3.
    assert_eq!(of_q(2, look.wide()), wanted(0xD0, 0x16));
}

#[test]
fn codes_have_the_bits_of_the_rules() {
    let look = Look::of(Colour::Red, Colour::Cyan);
    let code = |set, look| Code::bichrome(set, 0x21, look);
    let wanted = |b, a| Code { c: 0x21, b, a };
    assert_eq!(code(Set::G0, look), wanted(0x00, 0x16));
    assert_eq!(code(Set::G0, look.underlined()), wanted(0x10, 0x16));
    assert_eq!(code(Set::G10, look), wanted(0x20, 0x16));
    assert_eq!(code(Set::G11, look), wanted(0x30, 0x16));
    assert_eq!(code(Set::G20, look), wanted(0x40, 0x16));
    assert_eq!(code(Set::G21, look.underlined()), wanted(0x70, 0x16));
    assert_eq!(code(Set::G0, look.wide()), wanted(0x08, 0x16));
    assert_eq!(code(Set::G0, look.tall()), wanted(0x02, 0x16));
    assert_eq!(code(Set::G0, look.flashing()), wanted(0x00, 0x1E));
    assert_eq!(Code::quadrichrome(3, 0x21, 0x5A), wanted(0xD8, 0x5A));
}

#[test]
fn a_drawing_becomes_palettes_and_ranks() {
    let drawing = format!("....rybc\n{}", "....rrrr\n".repeat(9));
    let symbols = symbols(&drawing).expect("a right drawing");
    assert_eq!(symbols.len(), 1, "the black cell is left out");
    assert_eq!((symbols[0].row, symbols[0].column), (0, 1));
    assert_eq!(symbols[0].palette, 0x5A);
    assert_eq!(symbols[0].slices, [0xE4, 0, 0, 0, 0, 0, 0, 0, 0, 0]);
}

#[test]
fn a_wrong_drawing_is_told() {
    let told = |drawing: &str| symbols(drawing).expect_err("a wrong drawing");
    assert!(told("rgyb\nm").contains("differ in length"));
    assert!(told("rgyb\n").contains("4 marks by 10 lines"));
    assert!(told("rgx.\n").contains("`x` is no colour"));
    let five = format!("rgyb\n{}", "cccc\n".repeat(9));
    assert!(told(&five).contains("row 0, column 0 has more than four colours"));
}

#[test]
fn recorded_accesses_are_pairs_of_bytes() {
    let accesses = [(0x21, 0x08), (0x28, 0x87)].map(|(address, value)| Access { address, value });
    assert_eq!(to_bytes(&accesses), [0x21, 0x08, 0x28, 0x87]);
    assert_eq!(of_bytes(&[0x21, 0x08, 0x28, 0x87]), accesses);
    assert_eq!(of_bytes(&[0x21, 0x08, 0x28]), accesses[..1]);
    assert_eq!(of_bytes(&[]), []);
}
