//! Cells of 80 columns: the bits of their codes, drawings of mosaics, and the writer's accesses,
//! literally and by what they store.

use binturamis::{Panel, ROM_BYTES};
use snapshot::access::Access;
use snapshot::eighty::code::{Code, Ink, Look};
use snapshot::eighty::mosaics::mosaics;
use snapshot::eighty::writer::Writer;
use snapshot::panel::play;
use snapshot::registers::Registers;

const PLAIN: Look = Look::of(Ink::Low);

fn accesses(write: impl Fn(&mut Writer)) -> Vec<Access> {
    let mut writer = Writer::of(Registers::new());
    write(&mut writer);
    writer.accesses()
}

fn written(write: impl Fn(&mut Writer)) -> Vec<(u8, u8)> {
    let pair = |access: Access| (access.address, access.value);
    accesses(write).into_iter().map(pair).collect()
}

/// A panel after some writing, all of it accepted.
fn panel(write: impl Fn(&mut Writer)) -> Panel {
    let mut panel = Panel::new([0; ROM_BYTES]);
    let played = play(&mut panel, &accesses(write));
    assert_eq!(played.refused, 0, "{:?}", played.first);
    panel
}

#[test]
fn characters_have_the_bits_of_the_rules() {
    let attributes = |look| Code::character(0x41, look).attributes;
    assert_eq!(attributes(PLAIN), 0b0000);
    assert_eq!(attributes(Look::of(Ink::High)), 0b0001);
    assert_eq!(attributes(PLAIN.underlined()), 0b0010);
    assert_eq!(attributes(PLAIN.flashing()), 0b0100);
    assert_eq!(attributes(PLAIN.negative()), 0b1000);
    let all = Look::of(Ink::High).underlined().flashing().negative();
    assert_eq!(attributes(all), 0b1111);
    assert_eq!(Code::character(0x41, PLAIN).c, 0x41);
    assert_eq!(Code::character(0xC1, PLAIN).c, 0x41, "C7 is 0");
}

/// C0 to C6 and then bits 1 to 3 of the attributes.
#[test]
fn mosaics_have_the_bits_of_the_rules() {
    for window in 0..7 {
        let code = Code::mosaic(1 << window, Ink::Low);
        assert_eq!((code.c, code.attributes), (0x80 | 1 << window, 0));
    }
    for (window, attributes) in [(7, 0b0010), (8, 0b0100), (9, 0b1000)] {
        let code = Code::mosaic(1 << window, Ink::Low);
        assert_eq!((code.c, code.attributes), (0x80, attributes));
        let code = Code::mosaic(1 << window, Ink::High);
        assert_eq!((code.c, code.attributes), (0x80, attributes | 1));
    }
}

#[test]
fn a_drawing_becomes_windows_in_reading_order() {
    let drawing = "##..\n.#..\n..##\n#...\n...#\n";
    let windows = mosaics(drawing).expect("a right drawing");
    // From the first window on: 11 01 00 10 00, and 00 00 11 00 01.
    assert_eq!(windows, [[0b00_01_00_10_11, 0b10_00_11_00_00]]);
    let two_rows = mosaics(&"##\n".repeat(10)).expect("a right drawing");
    assert_eq!(two_rows, [[0x3FF], [0x3FF]]);
}

#[test]
fn a_wrong_drawing_is_told() {
    let told = |drawing: &str| mosaics(drawing).expect_err("a wrong drawing");
    assert!(told("##\n#").contains("differ in length"));
    assert!(told("##\n").contains("2 marks by 5 lines"));
    assert!(told("#x\n").contains("`x` is no window"));
}

#[test]
fn cells_go_on_with_one_write_where_only_the_character_differs() {
    let accesses = written(|writer| {
        writer.at(1, 3);
        writer.cell(Code::character(0x41, PLAIN.underlined()));
        writer.cell(Code::character(0x42, PLAIN.underlined()));
        writer.cell(Code::character(0x43, PLAIN));
    });
    let wanted = [
        (0x26, 8),
        (0x27, 0x81),
        (0x20, 0x51),
        (0x23, 0x22),
        (0x29, 0x41),
        (0x29, 0x42),
        (0x23, 0x00),
        (0x29, 0x43),
    ];
    assert_eq!(accesses, wanted);
}

#[test]
fn cells_are_stored_where_the_page_has_them() {
    let panel = panel(|writer| {
        for (row, position) in [(0, 0), (0, 79), (1, 0), (1, 79), (24, 78)] {
            writer.at(row, position);
            writer.cell(Code::character(0x42, PLAIN.negative()));
        }
    });
    let memory = panel.memory();
    // The place in a block, the block of C, and the nibble of the attributes.
    for (place, block, attributes) in [
        (0, 0, 0x80),
        (39, 1, 0x08),
        (256, 0, 0x80),
        (71, 1, 0x08),
        (255, 0, 0x80),
    ] {
        assert_eq!(memory[1024 * block + place], 0x42, "place {place}");
        assert_eq!(memory[2048 + place], attributes, "place {place}");
    }
    assert_eq!(memory.iter().filter(|byte| **byte != 0).count(), 10);
}

/// After the last position the pointer stands at the first one of the same row, and is not set anew.
#[test]
fn a_whole_row_ends_where_it_began() {
    let panel = panel(|writer| {
        writer.at(0, 0);
        (0..80).for_each(|c| writer.cell(Code::character(c, PLAIN)));
        writer.at(0, 0);
        writer.cell(Code::character(0x7F, PLAIN));
    });
    let memory = panel.memory();
    assert_eq!(memory[0], 0x7F);
    assert!(memory[1..40].iter().copied().eq((1..40).map(|x| 2 * x)));
    let odd = &memory[1024..1064];
    assert!(odd.iter().copied().eq((0..40).map(|x| 2 * x + 1)));
}
