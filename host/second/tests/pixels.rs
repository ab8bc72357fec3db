//! Pixels worked out by hand from the page's sentences.

mod flash;

use second::bench::Bench;
use second::cell::Cell;
use second::pointer::Pointer;
use second::Part;

/// Stores a cell in a row and column of the screen; the origin is 8 and the first block 0.
fn show(bench: &mut Bench, row: usize, column: usize, c: u8, b: u8, a: u8) {
    let y = if row == 0 { 0 } else { 7 + row };
    let pointer = Pointer { x: column, y, z: 0 };
    let part = Part::Ef9345;
    assert_eq!(bench.store_cell(pointer, Cell { part, c, b, a }).number, 0);
}

/// A drawable bench with G'0 in block 3 and G'10 and G'11 in blocks 6 and 7.
fn bench() -> Bench {
    let mut bench = Bench::drawable();
    bench.indirect(4, 0x33);
    bench
}

/// Puts ten slices into the ROM.
fn put_in_rom(bench: &mut Bench, set: usize, character: usize, slices: [u8; 10]) {
    let start = 1280 * set + 10 * character;
    bench.rom[start..start + 10].copy_from_slice(&slices);
}

/// Slices with no two alike, and with slice 9 not full.
const SLICES: [u8; 10] = [0x01, 0x02, 0x04, 0x08, 0x10, 0x20, 0x40, 0x80, 0x81, 0x82];

/// The slice that a line of a cell shows when foreground is 1 and background 0.
fn shown_slice(bench: &Bench, row: usize, column: usize, line: usize) -> u8 {
    let mut slice = 0;
    for (bit, pixel) in bench.pixels(row, column, line).into_iter().enumerate() {
        assert!(pixel < 2);
        slice |= pixel << bit;
    }
    slice
}

/// Which of the ten slices of `SLICES` each line of a cell shows.
fn shown_slices(bench: &Bench, row: usize, column: usize) -> Vec<usize> {
    (0..10)
        .map(|line| {
            let slice = shown_slice(bench, row, column, line);
            let number = SLICES.iter().position(|known| *known == slice);
            number.expect("a line shows one of the slices")
        })
        .collect()
}

fn all_lines_are(bench: &Bench, row: usize, column: usize, pixels: [u8; 8]) -> bool {
    (0..10).all(|line| bench.pixels(row, column, line) == pixels)
}

#[test]
fn the_leftmost_pixel_is_bit_0_and_the_low_four_bits() {
    let mut bench = bench();
    put_in_rom(&mut bench, 0, 0x42, [0x52; 10]);
    // The note's example: a yellow B on blue, here without its flash.
    show(&mut bench, 1, 0, 0x42, 0x00, 0x34);
    bench.draw();
    assert_eq!(bench.pixels(1, 0, 0), [4, 3, 4, 4, 3, 4, 3, 4]);
    assert_eq!(bench.picture[1600..1604], [0x34, 0x44, 0x43, 0x43]);
    assert_eq!(
        bench.picture[1600 + 160..1600 + 164],
        [0x34, 0x44, 0x43, 0x43]
    );
    assert_eq!(bench.picture[1604..1760], [0; 156]);
}

#[test]
fn each_set_of_the_rom_stands_in_its_order() {
    let mut bench = bench();
    for set in 0..5 {
        put_in_rom(&mut bench, set, 127, [0x11 * (set as u8 + 1); 10]);
    }
    // FF modulo 128 is 127 in all five sets.
    let columns = [0x00, 0x20, 0x30, 0x40, 0x60];
    for (column, b) in columns.into_iter().enumerate() {
        show(&mut bench, 0, column, 0xFF, b, 0x10);
    }
    bench.draw();
    for column in 0..5 {
        let expected = 0x11 * (column as u8 + 1);
        assert_eq!(shown_slice(&bench, 0, column, 0), expected);
        assert_eq!(shown_slice(&bench, 0, column, 9), expected);
    }
}

#[test]
fn each_user_set_stands_in_the_block_that_dor_names() {
    let mut bench = Bench::drawable();
    for block in 3..16 {
        bench.store_slices(0x20, block, [0x10 + block as u8; 10]);
    }
    let sets = [0x80, 0xA0, 0xB0, 0xC0 + 0x18, 0xC0 + 0x38];
    for (column, b) in sets.into_iter().enumerate() {
        show(
            &mut bench,
            1,
            column,
            0x20,
            b,
            if b < 0xC0 { 0x10 } else { 0x0F },
        );
    }
    for (dor, blocks) in [(0x25, [5, 4, 5, 3, 7]), (0xDE, [14, 10, 11, 11, 15])] {
        bench.indirect(4, dor);
        bench.draw();
        for column in 0..3 {
            assert_eq!(shown_slice(&bench, 1, column, 4), 0x10 + blocks[column]);
        }
        for column in 3..5 {
            // Palette 0F gives each rank its own number as colour.
            let pixels = bench.pixels(1, column, 4);
            let slice = pixels[0] + 4 * pixels[2] + 16 * pixels[4] + 64 * pixels[6];
            assert_eq!(slice, 0x10 + blocks[column]);
        }
    }
}

#[test]
fn underline_shows_on_slice_9_of_alphanumeric_sets_only() {
    let mut bench = bench();
    let underlined = [0x10, 0x50, 0x70, 0x90];
    let plain = [0x00, 0x40, 0x60, 0x80, 0x20, 0x30, 0xA0, 0xB0];
    for (column, b) in underlined.into_iter().chain(plain).enumerate() {
        show(&mut bench, 1, column, 0x20, b, 0x20);
    }
    bench.draw();
    for column in 0..12 {
        for line in 0..9 {
            assert_eq!(bench.pixels(1, column, line), [0; 8]);
        }
        let last = if column < 4 { 2 } else { 0 };
        assert_eq!(bench.pixels(1, column, 9), [last; 8], "column {column}");
    }
}

#[test]
fn a_double_height_underline_is_the_last_line_of_the_lower_half() {
    let mut bench = bench();
    show(&mut bench, 1, 0, 0x20, 0x12, 0x20);
    show(&mut bench, 2, 0, 0x20, 0x12, 0x20);
    bench.draw();
    for line in 0..19 {
        assert_eq!(bench.pixels(1 + line / 10, 0, line % 10), [0; 8]);
    }
    assert_eq!(bench.pixels(2, 0, 9), [2; 8]);
}

#[test]
fn conceal_needs_pat_3_and_hides_the_underline() {
    let mut bench = bench();
    put_in_rom(&mut bench, 0, 1, [0x0F; 10]);
    show(&mut bench, 1, 0, 1, 0x14, 0x14);
    show(&mut bench, 1, 1, 1, 0x14, 0x94);
    for pat in [0x00, 0x77] {
        bench.indirect(3, pat);
        bench.draw();
        assert_eq!(bench.pixels(1, 0, 0), [1, 1, 1, 1, 4, 4, 4, 4]);
        assert_eq!(bench.pixels(1, 0, 9), [1; 8]);
        assert_eq!(bench.pixels(1, 1, 0), [4, 4, 4, 4, 1, 1, 1, 1]);
        assert_eq!(bench.pixels(1, 1, 9), [4; 8]);
    }
    bench.indirect(3, 0x08);
    bench.draw();
    assert!(all_lines_are(&bench, 1, 0, [4; 8]));
    assert!(
        all_lines_are(&bench, 1, 1, [1; 8]),
        "a hidden negative cell is all foreground"
    );
}

#[test]
fn flash_needs_pat_6_and_a_phase_that_differs_from_negative() {
    let mut bench = bench();
    put_in_rom(&mut bench, 0, 1, [0x0F; 10]);
    show(&mut bench, 1, 0, 1, 0x00, 0x1C);
    show(&mut bench, 1, 1, 1, 0x00, 0x9C);
    let shown = [1, 1, 1, 1, 4, 4, 4, 4];
    let inverted = [4, 4, 4, 4, 1, 1, 1, 1];
    flash::follows_the_phase(&mut bench, shown, inverted, all_lines_are);
}

#[test]
fn a_phase_that_no_sequence_reaches_differs_from_both_negative_bits() {
    let mut bench = bench();
    put_in_rom(&mut bench, 0, 1, [0x0F; 10]);
    show(&mut bench, 1, 0, 1, 0x00, 0x1C);
    show(&mut bench, 1, 1, 1, 0x00, 0x9C);
    bench.indirect(3, 0x40);
    bench.processor.phase = 7;
    bench.draw();
    assert!(all_lines_are(&bench, 1, 0, [4; 8]));
    assert!(all_lines_are(&bench, 1, 1, [1; 8]));
}

#[test]
fn the_order_of_the_rules_of_a_pixel() {
    let mut bench = bench();
    put_in_rom(&mut bench, 0, 1, [0xF0; 10]);
    // Underlined and negative: the underline is inverted too, so slice 9 is all background.
    show(&mut bench, 1, 0, 1, 0x10, 0x94);
    // Underlined and flashing: the hidden phase hides the underline.
    show(&mut bench, 1, 1, 1, 0x10, 0x1C);
    bench.indirect(3, 0x48);
    bench.turn(1);
    bench.draw();
    assert_eq!(bench.pixels(1, 0, 8), [1, 1, 1, 1, 4, 4, 4, 4]);
    assert_eq!(bench.pixels(1, 0, 9), [4; 8]);
    assert_eq!(bench.pixels(1, 1, 9), [4; 8]);
    bench.turn(0);
    bench.draw();
    assert_eq!(bench.pixels(1, 1, 8), [4, 4, 4, 4, 1, 1, 1, 1]);
    assert_eq!(bench.pixels(1, 1, 9), [1; 8]);
}

const UPPER: [usize; 10] = [0, 0, 1, 1, 2, 2, 3, 3, 4, 4];
const LOWER: [usize; 10] = [5, 5, 6, 6, 7, 7, 8, 8, 9, 9];
const ALPHANUMERIC_UPPER: [usize; 10] = [0, 0, 0, 1, 1, 2, 2, 3, 3, 4];
const ALPHANUMERIC_LOWER: [usize; 10] = [4, 5, 5, 6, 6, 7, 7, 8, 8, 9];

#[test]
fn double_height_halves_alternate_down_a_run() {
    let mut bench = bench();
    put_in_rom(&mut bench, 1, 5, SLICES);
    put_in_rom(&mut bench, 3, 5, SLICES);
    for row in 0..5 {
        show(&mut bench, row, 7, 5, 0x22, 0x10);
        show(&mut bench, row, 8, 5, 0x42, 0x10);
    }
    for row in 20..25 {
        show(&mut bench, row, 7, 5, 0x22, 0x10);
    }
    bench.draw();
    for row in 0..5 {
        let (first, second) = if row % 2 == 0 {
            (UPPER, ALPHANUMERIC_UPPER)
        } else {
            (LOWER, ALPHANUMERIC_LOWER)
        };
        assert_eq!(shown_slices(&bench, row, 7), first);
        assert_eq!(shown_slices(&bench, row, 8), second);
        assert_eq!(shown_slices(&bench, 20 + row, 7), first);
    }
}

#[test]
fn the_run_starts_again_below_a_cell_with_other_bytes() {
    let mut bench = bench();
    put_in_rom(&mut bench, 1, 5, SLICES);
    // Bit 7 of C, bit 0 of B and, with PAT 6 zero, bit 3 of A draw nothing, but the bytes differ.
    for (column, c, b, a) in [
        (0, 0x85, 0x22, 0x10),
        (1, 0x05, 0x23, 0x10),
        (3, 0x05, 0x22, 0x18),
    ] {
        show(&mut bench, 3, column, 5, 0x22, 0x10);
        show(&mut bench, 4, column, c, b, a);
        show(&mut bench, 5, column, 5, 0x22, 0x10);
        show(&mut bench, 6, column, 5, 0x22, 0x10);
    }
    // Single height above: the bytes differ in B1 alone.
    show(&mut bench, 3, 2, 5, 0x20, 0x10);
    show(&mut bench, 4, 2, 5, 0x22, 0x10);
    bench.draw();
    for column in [0, 1, 3] {
        assert_eq!(shown_slices(&bench, 3, column), UPPER);
        assert_eq!(shown_slices(&bench, 4, column), UPPER);
        assert_eq!(shown_slices(&bench, 5, column), UPPER);
        assert_eq!(shown_slices(&bench, 6, column), LOWER);
    }
    let all: Vec<usize> = (0..10).collect();
    assert_eq!(shown_slices(&bench, 3, 2), all);
    assert_eq!(shown_slices(&bench, 4, 2), UPPER);
}

#[test]
fn above_is_the_screen_and_not_the_memory() {
    let mut bench = bench();
    put_in_rom(&mut bench, 1, 5, SLICES);
    // Y = 19 and Y = 20 are neighbours in memory; with origin 20 they are rows 24 and 1.
    let cell = Cell {
        part: Part::Ef9345,
        c: 5,
        b: 0x22,
        a: 0x10,
    };
    bench.store_cell(Pointer { x: 0, y: 19, z: 0 }, cell);
    bench.store_cell(Pointer { x: 0, y: 20, z: 0 }, cell);
    bench.draw();
    assert_eq!(shown_slices(&bench, 12, 0), UPPER);
    assert_eq!(shown_slices(&bench, 13, 0), LOWER);
    bench.indirect(7, 20);
    bench.draw();
    assert_eq!(shown_slices(&bench, 24, 0), UPPER);
    assert_eq!(shown_slices(&bench, 1, 0), UPPER);
    // Row 1's upper neighbour is row 0, the service row, wherever the origin is.
    bench.store_cell(Pointer { x: 0, y: 0, z: 0 }, cell);
    bench.draw();
    assert_eq!(shown_slices(&bench, 0, 0), UPPER);
    assert_eq!(shown_slices(&bench, 1, 0), LOWER);
}

#[test]
fn double_width_halves_alternate_along_a_run() {
    let mut bench = bench();
    // B4 hex has, from bit 0: 0 0 1 0 1 1 0 1.
    put_in_rom(&mut bench, 0, 9, [0xB4; 10]);
    for column in [0, 1, 2, 10, 36, 37, 38, 39] {
        show(&mut bench, 1, column, 9, 0x08, 0x10);
    }
    show(&mut bench, 2, 0, 9, 0x08, 0x10);
    show(&mut bench, 2, 1, 9, 0x00, 0x10);
    show(&mut bench, 2, 2, 9, 0x08, 0x10);
    bench.draw();
    let left = [0, 0, 0, 0, 1, 1, 0, 0];
    let right = [1, 1, 1, 1, 0, 0, 1, 1];
    for column in [0, 2, 10, 36, 38] {
        assert!(all_lines_are(&bench, 1, column, left));
    }
    for column in [1, 37, 39] {
        assert!(all_lines_are(&bench, 1, column, right));
    }
    // Column 0 has nothing to its left, not even the end of the row above.
    assert!(all_lines_are(&bench, 2, 0, left));
    assert!(all_lines_are(&bench, 2, 1, [0, 0, 1, 0, 1, 1, 0, 1]));
    assert!(all_lines_are(&bench, 2, 2, left));
}

#[test]
fn the_run_starts_again_to_the_right_of_a_cell_with_other_bytes() {
    let mut bench = bench();
    put_in_rom(&mut bench, 0, 9, [0xB4; 10]);
    for (row, c, b, a) in [
        (1, 0x89, 0x08, 0x10),
        (2, 0x09, 0x09, 0x10),
        (3, 0x09, 0x08, 0x18),
    ] {
        show(&mut bench, row, 3, 9, 0x08, 0x10);
        show(&mut bench, row, 4, c, b, a);
        show(&mut bench, row, 5, 9, 0x08, 0x10);
        show(&mut bench, row, 6, 9, 0x08, 0x10);
    }
    bench.draw();
    for row in 1..4 {
        for column in 3..6 {
            assert!(all_lines_are(&bench, row, column, [0, 0, 0, 0, 1, 1, 0, 0]));
        }
        assert!(all_lines_are(&bench, row, 6, [1, 1, 1, 1, 0, 0, 1, 1]));
    }
}

#[test]
fn height_and_width_are_independent() {
    let mut bench = bench();
    put_in_rom(&mut bench, 1, 5, [0xF3, 0, 0, 0, 0, 0, 0, 0, 0, 0x5A]);
    for row in 3..6 {
        for column in 20..23 {
            show(&mut bench, row, column, 5, 0x2A, 0x10);
        }
    }
    bench.draw();
    // F3 from bit 0: 1 1 0 0 1 1 1 1. 5A from bit 0: 0 1 0 1 1 0 1 0.
    for row in [3, 5] {
        for column in [20, 22] {
            assert_eq!(bench.pixels(row, column, 1), [1, 1, 1, 1, 0, 0, 0, 0]);
        }
        assert_eq!(bench.pixels(row, 21, 1), [1; 8]);
        assert_eq!(bench.pixels(row, 21, 9), [0; 8]);
    }
    assert_eq!(bench.pixels(4, 20, 8), [0, 0, 1, 1, 0, 0, 1, 1]);
    assert_eq!(bench.pixels(4, 21, 9), [1, 1, 0, 0, 1, 1, 0, 0]);
    assert_eq!(bench.pixels(4, 22, 1), [0; 8]);
}

/// Slices whose four ranks are all alike except in slice 9.
const RANKS: [u8; 10] = [0x00, 0x55, 0xAA, 0xFF, 0x00, 0xFF, 0xAA, 0x55, 0xFF, 0xE4];

#[test]
fn low_resolution_takes_five_slices_that_k_chooses() {
    let mut bench = bench();
    bench.store_slices(0x4B, 3, RANKS);
    show(&mut bench, 1, 0, 0x4B, 0xDA, 0x5A);
    show(&mut bench, 1, 1, 0x4B, 0xDE, 0x5A);
    show(&mut bench, 1, 2, 0x4B, 0xD8, 0x5A);
    show(&mut bench, 1, 3, 0x4B, 0xDC, 0x5A);
    bench.draw();
    let ranked = [1, 1, 3, 3, 4, 4, 6, 6];
    let k_0 = [1, 1, 3, 3, 4, 4, 6, 6, 1, 1];
    let k_1 = [6, 6, 4, 4, 3, 3, 6, 6];
    let high = [1, 3, 4, 6, 1, 6, 4, 3, 6];
    for line in 0..10 {
        assert_eq!(bench.pixels(1, 0, line), [k_0[line]; 8]);
        let low = if line < 8 { [k_1[line]; 8] } else { ranked };
        assert_eq!(bench.pixels(1, 1, line), low);
        let full = if line < 9 { [high[line]; 8] } else { ranked };
        assert_eq!(bench.pixels(1, 2, line), full);
        assert_eq!(
            bench.pixels(1, 3, line),
            full,
            "K counts at low resolution only"
        );
    }
}

#[test]
fn a_palette_of_more_or_fewer_than_four_colours() {
    let mut bench = bench();
    bench.store_slices(0x4B, 3, [0xE4; 10]);
    let palettes = [
        (0xFF, [0, 1, 2, 3]),
        (0x73, [0, 1, 4, 5]),
        (0xF6, [1, 2, 4, 5]),
        (0xF0, [4, 5, 6, 7]),
        (0x54, [2, 4, 6, 7]),
        (0x03, [0, 1, 7, 7]),
        (0x90, [4, 7, 7, 7]),
        (0x80, [7, 7, 7, 7]),
        (0x01, [0, 7, 7, 7]),
        (0x00, [7, 7, 7, 7]),
    ];
    for (column, (a, _)) in palettes.into_iter().enumerate() {
        show(&mut bench, 1, column, 0x4B, 0xD8, a);
    }
    bench.draw();
    for (column, (_, colours)) in palettes.into_iter().enumerate() {
        let [first, second, third, fourth] = colours;
        let pixels = [first, first, second, second, third, third, fourth, fourth];
        assert!(all_lines_are(&bench, 1, column, pixels));
    }
}

#[test]
fn quadrichrome_has_no_attributes_of_bichrome() {
    let mut bench = bench();
    bench.store_slices(0x4B, 3, [0xE4; 10]);
    // A = 9C would be negative and flashing, B2 concealed and B1 double height in a bichrome cell.
    for row in 1..3 {
        for column in 0..2 {
            show(&mut bench, row, column, 0x4B, 0xDE, 0x9C);
        }
    }
    bench.indirect(3, 0x7F);
    for phase in [0, 1] {
        bench.turn(phase);
        bench.draw();
        for row in 1..3 {
            for column in 0..2 {
                let pixels = [2, 2, 3, 3, 4, 4, 7, 7];
                assert!(all_lines_are(&bench, row, column, pixels));
            }
        }
    }
}

#[test]
fn slices_at_an_illegal_y_are_0_and_the_later_rules_act_on_them() {
    let mut bench = bench();
    // Every byte of the blocks of slices is FF, so a byte that was read would show.
    for block in [3, 6, 7] {
        bench.memory[1024 * block..1024 * (block + 1)].fill(0xFF);
    }
    for (column, c) in [0x04, 0x10, 0x1F, 0x84].into_iter().enumerate() {
        show(&mut bench, 1, column, c, 0x90, 0x14);
        show(&mut bench, 2, column, c, 0xA0, 0x94);
        show(&mut bench, 3, column, c, 0xD8, 0x5A);
        show(&mut bench, 5, column, c, 0xD8, 0x00);
    }
    for (column, c) in [0x03, 0x20, 0x80].into_iter().enumerate() {
        show(&mut bench, 4, column, c, 0x80, 0x14);
    }
    bench.draw();
    for column in 0..4 {
        for line in 0..9 {
            assert_eq!(bench.pixels(1, column, line), [4; 8]);
        }
        assert_eq!(bench.pixels(1, column, 9), [1; 8], "the underline");
        assert!(all_lines_are(&bench, 2, column, [1; 8]), "the negative");
        assert!(all_lines_are(&bench, 3, column, [1; 8]), "rank 0");
        assert!(all_lines_are(&bench, 5, column, [7; 8]), "no rank 0");
    }
    for column in 0..3 {
        assert!(all_lines_are(&bench, 4, column, [1; 8]), "a legal Y");
    }
}

#[test]
fn the_three_bytes_come_from_the_district_of_the_first_block() {
    for ror_bits in 0..8u8 {
        let mut bench = Bench::drawable();
        bench.indirect(7, 32 * ror_bits + 8);
        let first = 2 * usize::from(ror_bits);
        let district = first - first % 4;
        let third = district + (first + 2) % 4;
        // A white space on red in row 24, column 39: Y is 31.
        bench.memory[1024 * third + 255] = 0x71;
        bench.draw();
        assert!(all_lines_are(&bench, 24, 39, [1; 8]));
        assert!(all_lines_are(&bench, 24, 38, [0; 8]));
    }
}

#[test]
fn what_is_not_built_is_ignored() {
    let mut bench = bench();
    put_in_rom(&mut bench, 0, 1, [0x0F; 10]);
    for row in 0..25 {
        show(&mut bench, row, row, 1, 0x05, 0x1C);
    }
    bench.indirect(3, 0x48);
    bench.draw();
    let picture = bench.picture.clone();
    for value in 0..=255u8 {
        bench.indirect(1, value % 0x20);
        bench.indirect(2, value);
        bench.indirect(3, 0x48 | value & 0x37);
        assert_eq!(bench.draw().number, 0);
        assert_eq!(bench.picture, picture);
    }
}
