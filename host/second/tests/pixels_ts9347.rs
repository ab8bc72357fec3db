//! The cells of the TS9347 (request T-10): the type that each B byte names, the ROM, and what a draw
//! shows of them.

use second::address::place;
use second::bench::Bench;
use second::cell::{Cell, Source};
use second::pointer::Pointer;
use second::random::Random;
use second::set::Set;
use second::{Board, Part};

/// G'0 in block 5, G'10 and G'11 in blocks 6 and 7, the sets Q from block 0, or from block 8 with DOR 7.
const DOR: u8 = 0x35;

fn cell(c: u8, b: u8, a: u8) -> Cell {
    let part = Part::Ts9347;
    Cell { part, c, b, a }
}

/// The set of each B, written out by its high four bits.
const SETS: [Set; 16] = [
    Set::G0,
    Set::G0,
    Set::G10,
    Set::Goe,
    Set::G0,
    Set::G0,
    Set::G10,
    Set::Goe,
    Set::UserG0,
    Set::UserG0,
    Set::UserG10,
    Set::UserG11,
    Set::Q,
    Set::Q,
    Set::Q,
    Set::Q,
];

#[test]
fn every_b_names_its_set_and_attributes() {
    for b in 0..=255u8 {
        let cell = cell(0x41, b, 0xFF);
        let set = SETS[usize::from(b / 16)];
        let is_set = |bit: u8| b >> bit & 1 == 1;
        assert_eq!(cell.set(), Some(set), "B {b:02X}");
        assert!(!cell.is_quadrichrome() && !cell.is_low_resolution());
        let alphanumeric = matches!(set, Set::G0 | Set::UserG0);
        assert_eq!(cell.is_alphanumeric(), alphanumeric, "B {b:02X}");
        assert_eq!(cell.is_underlined(), alphanumeric && is_set(4));
        assert_eq!(cell.is_double_width(), set != Set::Q && is_set(3));
        assert_eq!(cell.is_concealed(), is_set(2));
        assert_eq!(cell.is_double_height(), is_set(1));
        assert!(cell.is_flashing());
        // "B6 is not looked at" where B7 is 0.
        if b < 0x80 {
            let other = Cell {
                b: b ^ 0x40,
                ..cell
            };
            assert_eq!(cell.source(DOR), other.source(DOR), "B {b:02X}");
        }
    }
}

#[test]
fn every_b_and_dor_name_the_source() {
    for b in 0..=255u8 {
        for dor in 0..=255u8 {
            let expected = match SETS[usize::from(b / 16)] {
                Set::G10 => Source::Rom(0),
                Set::Goe => Source::Rom(1),
                Set::G0 => Source::Rom(2),
                Set::UserG0 => Source::Block(usize::from(dor & 0x0F)),
                Set::UserG10 => Source::Block(usize::from(dor >> 3 & 0x0E)),
                Set::UserG11 => Source::Block(usize::from(dor >> 3 & 0x0E) + 1),
                _ => Source::Block(usize::from(dor >> 4 & 8) + usize::from(b >> 3 & 7)),
            };
            assert_eq!(cell(0, b, 0).source(dor), expected, "B {b:02X}, {dor:02X}");
        }
    }
}

/// The page is in blocks 12 to 14 (ROR C8 hex), above those of the user sets.
const FIRST: usize = 12;

/// A board whose slices can be told apart: slice s of character 41 is 16 times a number of its set, plus
/// s. The numbers: 1 to 3 of G10, GOE and G0 in the ROM, and for a block 4 more than its own.
fn bench() -> Bench {
    let mut bench = Bench::power_up_board(Board::TS9347);
    bench.indirect(7, 0xC8);
    bench.indirect(4, DOR);
    for slice in 0..10 {
        for set in 0..3 {
            bench.rom[1_280 * set + 0x41 * 10 + slice] = 16 * (1 + set as u8) + slice as u8;
        }
        for block in 0..8 {
            let at = place(4 * slice + 1, 0x10, block);
            bench.memory[at] = 16 * (4 + block as u8) + slice as u8;
        }
    }
    bench
}

/// Stores a cell at a row of origin 8, which is Y = 7 + row, and a column.
fn put(bench: &mut Bench, row: usize, column: usize, cell: Cell) {
    let pointer = Pointer {
        x: column,
        y: 7 + row,
        z: FIRST,
    };
    assert_eq!(bench.store_cell(pointer, cell).number, 0);
}

/// The pixels of bits, lowest first, in colour 6 on 1.
fn pixels(bits: u8) -> [u8; 8] {
    std::array::from_fn(|pixel| if bits >> pixel & 1 == 1 { 6 } else { 1 })
}

/// Each bit twice: bits 0 to 3 of the left half, 4 to 7 of the right.
fn doubled(bits: u8, right: bool) -> [u8; 8] {
    let four = if right { bits >> 4 } else { bits };
    std::array::from_fn(|pixel| if four >> (pixel / 2) & 1 == 1 { 6 } else { 1 })
}

/// The number of the set that a B names, as in `bench`.
fn number(b: u8) -> u8 {
    match SETS[usize::from(b / 16)] {
        Set::G10 => 1,
        Set::Goe => 2,
        Set::G0 => 3,
        Set::UserG0 => 4 + 5,
        Set::UserG10 => 4 + 6,
        Set::UserG11 => 4 + 7,
        _ => 4 + b / 8 % 8,
    }
}

/// The slices of the upper and of the lower half of a double height character.
const ALPHANUMERIC: [[u8; 10]; 2] = [
    [0, 0, 0, 1, 1, 2, 2, 3, 3, 4],
    [4, 5, 5, 6, 6, 7, 7, 8, 8, 9],
];
const SEMIGRAPHIC: [[u8; 10]; 2] = [
    [0, 0, 1, 1, 2, 2, 3, 3, 4, 4],
    [5, 5, 6, 6, 7, 7, 8, 8, 9, 9],
];

/// The slices that the lines of a half show.
fn slices(b: u8, lower: bool) -> [u8; 10] {
    let alphanumeric = b & 0xA0 == 0 || b & 0xE0 == 0x80;
    match (b & 0x02, alphanumeric) {
        (0, _) => [0, 1, 2, 3, 4, 5, 6, 7, 8, 9],
        (_, true) => ALPHANUMERIC[usize::from(lower)],
        (_, false) => SEMIGRAPHIC[usize::from(lower)],
    }
}

/// Each B in a square of four equal cells, so that every half of it is shown.
#[test]
fn every_b_is_drawn_as_the_request_has_it() {
    for b in 0..=255u8 {
        let mut bench = bench();
        for (row, column) in [(1, 0), (1, 1), (2, 0), (2, 1)] {
            put(&mut bench, row, column, cell(0x41, b, 0x61));
        }
        assert_eq!(bench.draw().number, 0);
        let underlined = b & 0x10 != 0 && (b & 0xA0 == 0 || b & 0xE0 == 0x80);
        let wide = b & 0x08 != 0 && b < 0xC0;
        for (row, column) in [(1, 0), (1, 1), (2, 0), (2, 1)] {
            for (line, slice) in slices(b, row == 2).into_iter().enumerate() {
                let value = match slice {
                    9 if underlined => 0xFF,
                    _ => 16 * number(b) + slice,
                };
                let expected = if wide {
                    doubled(value, column == 1)
                } else {
                    pixels(value)
                };
                let shown = bench.pixels(row, column, line);
                assert_eq!(shown, expected, "B {b:02X}, row {row}, line {line}");
            }
        }
    }
}

/// "Its character ROM is lent as three sets of 128, in the order G10, GOE, G0."
#[test]
fn the_rom_has_its_sets_in_the_order_g10_goe_g0() {
    let mut random = Random::new(9347);
    let mut bench = bench();
    bench.rom = random.bytes(3_840);
    for _ in 0..60 {
        let c = random.byte();
        for (column, (b, set)) in [(0x20, 0), (0x30, 1), (0x00, 2)].into_iter().enumerate() {
            put(&mut bench, 5, column, cell(c, b, 0x61));
            let at = 1_280 * set + 10 * usize::from(c % 128);
            bench.draw();
            for line in 0..10 {
                let slice = bench.rom[at + line];
                assert_eq!(bench.pixels(5, column, line), pixels(slice), "C {c:02X}");
            }
        }
    }
}

/// GOE is semigraphic: B4 is part of its code and no underline, and of twenty lines each slice has two.
#[test]
fn goe_is_never_underlined_and_doubles_every_slice() {
    let mut bench = bench();
    put(&mut bench, 3, 7, cell(0x41, 0x30, 0x61));
    put(&mut bench, 4, 7, cell(0x41, 0x32, 0x61));
    put(&mut bench, 5, 7, cell(0x41, 0x32, 0x61));
    bench.draw();
    for line in 0..10 {
        let slice = |number: usize| pixels(0x20 + number as u8);
        assert_eq!(bench.pixels(3, 7, line), slice(line));
        assert_eq!(bench.pixels(4, 7, line), slice(line / 2));
        assert_eq!(bench.pixels(5, 7, line), slice(5 + line / 2));
    }
}

/// "User set Q by B5..3 in block 8·DOR 7 + B5..3": with DOR 7 the page moves by 16 blocks, the sets by 8.
#[test]
fn the_sets_q_and_the_page_both_follow_dor_7() {
    let mut bench = bench();
    bench.indirect(4, 0x80 | DOR);
    for block in 8..16 {
        for slice in 0..10 {
            bench.memory[place(4 * slice + 1, 0x10, block)] = 16 * block as u8 + slice as u8;
        }
    }
    for q in 0..8u8 {
        let pointer = Pointer {
            x: usize::from(q),
            y: 8,
            z: 16 + FIRST,
        };
        bench.store_cell(pointer, cell(0x41, 0xC0 + 8 * q, 0x61));
    }
    assert_eq!(bench.draw().number, 0);
    for q in 0..8 {
        for line in 0..10 {
            let slice = 16 * (8 + q as u8) + line as u8;
            assert_eq!(bench.pixels(1, q, line), pixels(slice), "Q{q}");
        }
    }
}

/// "11: user set Q [..], bichrome and semigraphic, never double width": colours are A's foreground and
/// background, B3 is of the set's number, and equal neighbours show the same pixels.
#[test]
fn the_sets_q_are_bichrome_and_never_double_width() {
    let mut bench = bench();
    for b in [0xC8, 0xD8, 0xE8, 0xF8] {
        for column in 0..3 {
            put(&mut bench, 1, column, cell(0x41, b, 0x61));
            put(&mut bench, 2, column, cell(0x41, b, 0xE1));
        }
        bench.draw();
        for line in 0..10 {
            let value = 16 * number(b) + line as u8;
            for column in 0..3 {
                assert_eq!(bench.pixels(1, column, line), pixels(value), "B {b:02X}");
                // Negative, which a palette has not.
                assert_eq!(bench.pixels(2, column, line), pixels(!value), "B {b:02X}");
            }
        }
    }
}

/// "All cells are bichrome", so that B1 is double height, and no resolution, of the sets Q too.
#[test]
fn the_sets_q_may_be_double_height() {
    let mut bench = bench();
    for row in 3..8 {
        put(&mut bench, row, 39, cell(0x41, 0xD2, 0x61));
    }
    bench.draw();
    for row in 3..8 {
        for line in 0..10 {
            let slice = 5 * ((row - 3) % 2) + line / 2;
            let expected = pixels(16 * number(0xD2) + slice as u8);
            assert_eq!(bench.pixels(row, 39, line), expected, "row {row}");
        }
    }
}

/// Flash and conceal act on the sets Q as on any other bichrome cell.
#[test]
fn the_sets_q_flash_and_are_concealed() {
    for (b, a, pat, phase, on) in [
        (0xC0, 0x69, 0x40, 0, true),
        (0xC0, 0x69, 0x40, 1, false),
        (0xC0, 0x69, 0x3F, 1, true),
        (0xC4, 0x61, 0x08, 0, false),
        (0xC4, 0x61, 0x77, 0, true),
    ] {
        let mut bench = bench();
        put(&mut bench, 1, 0, cell(0x41, b, a));
        bench.indirect(3, pat);
        bench.turn(phase);
        bench.draw();
        for line in 0..10 {
            let expected = if on {
                pixels(0x40 + line as u8)
            } else {
                [1; 8]
            };
            assert_eq!(bench.pixels(1, 0, line), expected, "PAT {pat:02X}");
        }
    }
}

/// A slice of a character whose Y is 1 to 7 is 0, and no byte is read.
#[test]
fn slices_at_no_legal_place_are_0() {
    for b in [0x80, 0xA0, 0xB0, 0xC0, 0xF8] {
        for c in [0x04, 0x1F, 0x9F] {
            let mut bench = bench();
            bench.memory[..8 * 1_024].fill(0xFF);
            put(&mut bench, 1, 0, cell(c, b, 0x61));
            bench.draw();
            for line in 0..10 {
                assert_eq!(bench.pixels(1, 0, line), [1; 8], "B {b:02X}, C {c:02X}");
            }
        }
    }
}
