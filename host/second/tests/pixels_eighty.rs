//! Pixels of 80 columns, worked out by hand from the readings of request T-01.

mod flash;

use second::address::place;
use second::bench::Bench;
use second::code::Code;
use second::pointer::Pointer;

/// DOR and MAT of most tests: 1 is red where D is 0 and green where it is 1, and 0 is blue.
const DOR: u8 = 0x21;
const MAT: u8 = 0x04;

/// A drawable bench of 80 columns with these colours; the origin is 8 and the first block 0.
fn bench() -> Bench {
    let mut bench = Bench::drawable_eighty();
    bench.indirect(4, DOR);
    bench.indirect(2, MAT);
    bench
}

fn pointer(row: usize, position: usize) -> Pointer {
    Pointer {
        x: position / 2,
        y: if row == 0 { 0 } else { 7 + row },
        z: position % 2,
    }
}

/// Stores a code in a row and position of the screen.
fn show(bench: &mut Bench, row: usize, position: usize, c: u8, nibble: u8) {
    let answer = bench.store_code(pointer(row, position), Code { c, nibble });
    assert_eq!(answer.number, 0);
}

/// Puts ten slices of a character of G0 into the ROM.
fn put_in_rom(bench: &mut Bench, character: usize, slices: [u8; 10]) {
    bench.rom[10 * character..10 * character + 10].copy_from_slice(&slices);
}

fn all_lines_are(bench: &Bench, row: usize, position: usize, pixels: [u8; 6]) -> bool {
    (0..10).all(|line| bench.narrow_pixels(row, position, line) == pixels)
}

#[test]
fn the_leftmost_pixel_is_bit_0_and_the_low_four_bits_and_bits_6_and_7_are_cut() {
    let mut bench = bench();
    // D2 hex has, from bit 0: 0 1 0 0 1 0, and then 1 1.
    put_in_rom(&mut bench, 0x42, [0xD2; 10]);
    show(&mut bench, 1, 0, 0x42, 0x0);
    assert_eq!(bench.draw().value, 25);
    assert_eq!(bench.picture.len(), 60_000);
    for line in 0..10 {
        let from = 2400 + 240 * line;
        assert_eq!(bench.picture[from..from + 3], [0x14, 0x44, 0x41]);
        assert_eq!(bench.picture[from + 3..from + 240], [0x44; 237]);
    }
    assert_eq!(bench.narrow_pixels(1, 0, 0), [4, 1, 4, 4, 1, 4]);
}

#[test]
fn each_position_has_three_bytes_of_a_line() {
    let mut bench = bench();
    put_in_rom(&mut bench, 1, [0x3F; 10]);
    for (row, position) in [(0, 0), (0, 79), (5, 1), (12, 40), (24, 78), (24, 79)] {
        let mut alone = bench.clone();
        show(&mut alone, row, position, 1, 0);
        alone.draw();
        let mut expected = vec![0x44; 60_000];
        for line in 0..10 {
            let from = 2400 * row + 240 * line + 3 * position;
            expected[from..from + 3].fill(0x11);
        }
        assert_eq!(alone.picture, expected);
    }
}

#[test]
fn the_slice_is_the_line() {
    let mut bench = bench();
    let slices = [0, 1, 2, 3, 4, 5, 6, 7, 8, 9];
    put_in_rom(&mut bench, 0x55, slices);
    show(&mut bench, 3, 7, 0x55, 0x0);
    bench.draw();
    for line in 0..10 {
        let bits = [0, 1, 2, 3, 4, 5].map(|bit| slices[line] >> bit & 1);
        let expected = bits.map(|bit| if bit == 1 { 1 } else { 4 });
        assert_eq!(bench.narrow_pixels(3, 7, line), expected);
    }
}

#[test]
fn every_character_is_of_g0() {
    let mut bench = bench();
    // Another set that was read would show in every pixel.
    bench.rom.fill(0xFF);
    for character in 0..128 {
        put_in_rom(&mut bench, character, [character as u8 % 64; 10]);
        let (row, position) = (character / 80, character % 80);
        show(&mut bench, row, position, character as u8, 0x0);
    }
    bench.draw();
    for character in 0..128usize {
        let bits = [0, 1, 2, 3, 4, 5].map(|bit| character >> bit & 1);
        let expected = bits.map(|bit| if bit == 1 { 1 } else { 4 });
        let (row, position) = (character / 80, character % 80);
        assert!(all_lines_are(&bench, row, position, expected));
    }
}

#[test]
fn even_and_odd_positions_have_their_own_c_byte_and_nibble() {
    let mut bench = bench();
    put_in_rom(&mut bench, 0x31, [0x01; 10]);
    put_in_rom(&mut bench, 0x32, [0x20; 10]);
    // By their places: C of the even position in block 0, of the odd one in block 1; the attributes
    // in block 2, D of the even position being bit 4 and of the odd one bit 0.
    for (row, attributes) in [(1, 0x00), (2, 0x10), (3, 0x01), (4, 0x11)] {
        let y = 7 + row;
        bench.memory[place(39, y, 0)] = 0x31;
        bench.memory[place(39, y, 1)] = 0x32;
        bench.memory[place(39, y, 2)] = attributes;
    }
    bench.draw();
    for (row, even, odd) in [(1, 1, 1), (2, 2, 1), (3, 1, 2), (4, 2, 2)] {
        assert!(all_lines_are(&bench, row, 78, [even, 4, 4, 4, 4, 4]));
        assert!(all_lines_are(&bench, row, 79, [4, 4, 4, 4, 4, odd]));
    }
}

#[test]
fn the_three_blocks_are_of_the_district_of_the_first() {
    for ror_bits in 0..8u8 {
        let mut bench = bench();
        bench.indirect(7, 32 * ror_bits + 8);
        let first = 2 * usize::from(ror_bits);
        let district = first - first % 4;
        put_in_rom(&mut bench, 1, [0x3F; 10]);
        put_in_rom(&mut bench, 2, [0x0F; 10]);
        bench.memory[place(20, 31, first)] = 1;
        bench.memory[place(20, 31, first + 1)] = 2;
        bench.memory[place(20, 31, district + (first + 2) % 4)] = 0x10;
        bench.draw();
        assert!(all_lines_are(&bench, 24, 40, [2; 6]));
        assert!(all_lines_are(&bench, 24, 41, [1, 1, 1, 1, 4, 4]));
    }
}

#[test]
fn underline_shows_on_slice_9() {
    let mut bench = bench();
    for (position, nibble) in [(0, 0x2), (1, 0x3), (2, 0x0), (3, 0xD)] {
        show(&mut bench, 1, position, 0x20, nibble);
    }
    bench.draw();
    for line in 0..9 {
        assert_eq!(bench.narrow_pixels(1, 0, line), [4; 6]);
        assert_eq!(bench.narrow_pixels(1, 1, line), [4; 6]);
    }
    assert_eq!(bench.narrow_pixels(1, 0, 9), [1; 6]);
    assert_eq!(bench.narrow_pixels(1, 1, 9), [2; 6]);
    assert!(all_lines_are(&bench, 1, 2, [4; 6]));
    // Negative, not underlined: a space is all foreground.
    assert!(all_lines_are(&bench, 1, 3, [2; 6]));
}

#[test]
fn negative_inverts_and_d_chooses_the_colour_of_1() {
    let mut bench = bench();
    put_in_rom(&mut bench, 1, [0x07; 10]);
    for (position, nibble) in [(4, 0x0), (5, 0x1), (6, 0x8), (7, 0x9)] {
        show(&mut bench, 2, position, 1, nibble);
    }
    bench.draw();
    assert!(all_lines_are(&bench, 2, 4, [1, 1, 1, 4, 4, 4]));
    assert!(all_lines_are(&bench, 2, 5, [2, 2, 2, 4, 4, 4]));
    assert!(all_lines_are(&bench, 2, 6, [4, 4, 4, 1, 1, 1]));
    assert!(all_lines_are(&bench, 2, 7, [4, 4, 4, 2, 2, 2]));
}

#[test]
fn flash_needs_pat_6_and_a_phase_that_differs_from_negative() {
    let mut bench = bench();
    put_in_rom(&mut bench, 1, [0x07; 10]);
    show(&mut bench, 1, 0, 1, 0x4);
    show(&mut bench, 1, 1, 1, 0xC);
    let shown = [1, 1, 1, 4, 4, 4];
    let inverted = [4, 4, 4, 1, 1, 1];
    flash::follows_the_phase(&mut bench, shown, inverted, all_lines_are);
}

#[test]
fn a_phase_that_no_sequence_reaches_differs_from_both_negative_bits() {
    let mut bench = bench();
    put_in_rom(&mut bench, 1, [0x07; 10]);
    show(&mut bench, 1, 0, 1, 0x4);
    show(&mut bench, 1, 1, 1, 0xC);
    bench.indirect(3, 0x40);
    bench.processor.phase = 7;
    bench.draw();
    assert!(all_lines_are(&bench, 1, 0, [4; 6]));
    assert!(all_lines_are(&bench, 1, 1, [1; 6]));
}

#[test]
fn the_order_of_the_rules_of_a_pixel() {
    let mut bench = bench();
    put_in_rom(&mut bench, 1, [0x38; 10]);
    // Underlined and negative: the underline is inverted too, so slice 9 is all background.
    show(&mut bench, 1, 0, 1, 0xA);
    // Underlined and flashing: the hidden phase hides the underline.
    show(&mut bench, 1, 1, 1, 0x6);
    // All three: hidden in phase 0, and then all foreground.
    show(&mut bench, 1, 2, 1, 0xE);
    bench.indirect(3, 0x40);
    bench.turn(1);
    bench.draw();
    assert_eq!(bench.narrow_pixels(1, 0, 8), [1, 1, 1, 4, 4, 4]);
    assert_eq!(bench.narrow_pixels(1, 0, 9), [4; 6]);
    assert_eq!(bench.narrow_pixels(1, 1, 9), [4; 6]);
    assert_eq!(bench.narrow_pixels(1, 2, 8), [1, 1, 1, 4, 4, 4]);
    assert_eq!(bench.narrow_pixels(1, 2, 9), [4; 6]);
    bench.turn(0);
    bench.draw();
    assert_eq!(bench.narrow_pixels(1, 1, 8), [4, 4, 4, 1, 1, 1]);
    assert_eq!(bench.narrow_pixels(1, 1, 9), [1; 6]);
    assert!(all_lines_are(&bench, 1, 2, [1; 6]));
}

/// The code of the mosaic that has one window alone, in reading order, and its nibble without D.
const WINDOWS: [(u8, u8); 10] = [
    (0x81, 0x0),
    (0x82, 0x0),
    (0x84, 0x0),
    (0x88, 0x0),
    (0x90, 0x0),
    (0xA0, 0x0),
    (0xC0, 0x0),
    (0x80, 0x2),
    (0x80, 0x4),
    (0x80, 0x8),
];

#[test]
fn each_window_of_a_mosaic_is_three_pixels_by_two_lines() {
    let mut bench = bench();
    bench.rom.fill(0xFF);
    for (window, (c, nibble)) in WINDOWS.into_iter().enumerate() {
        for d in [0, 1] {
            // At an even and at an odd position.
            show(&mut bench, 1, 2 * window + usize::from(d), c, nibble + d);
            show(
                &mut bench,
                2,
                41 + 2 * window - usize::from(d),
                c,
                nibble + d,
            );
        }
    }
    bench.draw();
    for window in 0..10 {
        for (d, colour) in [(0, 1), (1, 2)] {
            for line in 0..10 {
                let mut expected = [4; 6];
                if line / 2 == window / 2 {
                    let left = 3 * (window % 2);
                    expected[left..left + 3].fill(colour);
                }
                let pixels = bench.narrow_pixels(1, 2 * window + d, line);
                assert_eq!(pixels, expected, "window {window}, line {line}");
                let pixels = bench.narrow_pixels(2, 41 + 2 * window - d, line);
                assert_eq!(pixels, expected, "window {window}, line {line}");
            }
        }
    }
}

#[test]
fn a_mosaic_of_several_windows() {
    let mut bench = bench();
    // C 1 101 1001 and nibble 0 1 1: windows 0, 3, 4, 6, and of 7, 8, 9 the first two; D is 1.
    show(&mut bench, 0, 33, 0xD9, 0x7);
    bench.draw();
    let lines = ["###...", "...###", "###...", "######", "###..."];
    for (pair, expected) in lines.into_iter().enumerate() {
        for line in [2 * pair, 2 * pair + 1] {
            let pixels = bench.narrow_pixels(0, 33, line);
            let shown: String = pixels
                .into_iter()
                .map(|pixel| match pixel {
                    2 => '#',
                    4 => '.',
                    _ => '?',
                })
                .collect();
            assert_eq!(shown, expected, "line {line}");
        }
    }
}

#[test]
fn a_mosaic_has_no_attribute_but_d() {
    let mut bench = bench();
    // Nibble E would be negative, flashing and underlined in a character.
    show(&mut bench, 1, 0, 0x80, 0xE);
    show(&mut bench, 1, 1, 0xFF, 0xE);
    show(&mut bench, 1, 2, 0xFF, 0x1);
    for pat in [0x00, 0x40, 0x7F] {
        for phase in [0, 1] {
            bench.indirect(3, pat);
            bench.turn(phase);
            bench.draw();
            for line in 0..10 {
                let upper = if line < 6 { [4; 6] } else { [1; 6] };
                let last = if line < 6 { upper } else { [4, 4, 4, 1, 1, 1] };
                let expected = if line < 8 { last } else { [1; 6] };
                assert_eq!(bench.narrow_pixels(1, 0, line), expected);
                assert_eq!(bench.narrow_pixels(1, 1, line), [1; 6]);
                let expected = match line {
                    0..=5 => [2; 6],
                    6 | 7 => [2, 2, 2, 4, 4, 4],
                    _ => [4; 6],
                };
                assert_eq!(bench.narrow_pixels(1, 2, line), expected);
            }
        }
    }
}

#[test]
fn the_colours_are_three_bits_of_dor_and_mat() {
    let mut bench = bench();
    put_in_rom(&mut bench, 1, [0x07; 10]);
    show(&mut bench, 1, 0, 1, 0x0);
    show(&mut bench, 1, 1, 1, 0x1);
    show(&mut bench, 1, 2, 0x81, 0x0);
    show(&mut bench, 1, 3, 0x81, 0x1);
    for value in 0..=255u8 {
        let (dor, mat) = (value, value.wrapping_mul(37) ^ 0x5A);
        bench.indirect(4, dor);
        bench.indirect(2, mat);
        bench.draw();
        let (first, second, background) = (dor & 7, dor >> 4 & 7, mat & 7);
        for (position, colour) in [(0, first), (1, second), (2, first), (3, second)] {
            let [left, right] = [colour, background];
            let expected = [left, left, left, right, right, right];
            assert_eq!(bench.narrow_pixels(1, position, 1), expected);
        }
    }
}

#[test]
fn what_means_nothing_here_is_ignored() {
    let mut bench = bench();
    for row in 0..25 {
        for position in 0..80 {
            let c = (7 * position + 13 * row) as u8;
            show(&mut bench, row, position, c, (position + row) as u8 % 16);
        }
    }
    bench.rom = (0..6_400).map(|at| (at % 253) as u8).collect();
    bench.indirect(3, 0x40);
    bench.turn(1);
    bench.draw();
    let picture = bench.picture.clone();
    for value in 0..=255u8 {
        bench.indirect(1, 0xC0 | value & 0x1F);
        // The cursor, the insert bit of the margin and zoom.
        bench.indirect(2, MAT | value & 0xF8);
        // Conceal (PAT 3) is a bit that other modes read; so are the enables and insert modes.
        bench.indirect(3, 0x40 | value & 0x3F);
        // The insert bits.
        bench.indirect(4, DOR | value & 0x88);
        assert_eq!(bench.draw().number, 0);
        assert_eq!(bench.picture, picture);
    }
    // Only the first set of the ROM is shown.
    bench.rom[1280..].fill(0x55);
    assert_eq!(bench.processor.fresh(&bench.memory, &bench.rom), picture);
}

#[test]
fn the_same_memory_in_both_modes_and_back() {
    let mut bench = Bench::drawable();
    bench.memory = (0..16_384).map(|at| (at * 7 % 251) as u8).collect();
    bench.rom = (0..6_400).map(|at| (at % 241) as u8).collect();
    bench.draw();
    let forty = bench.picture.clone();
    bench.indirect(1, 0xC0);
    assert_eq!(bench.draw().number, 6, "the picture of 40 columns");
    bench.fit_picture(0xEE);
    assert_eq!(bench.draw().value, 25);
    assert!(bench.picture.iter().all(|byte| *byte & 0x88 == 0));
    bench.indirect(1, 0x00);
    assert_eq!(bench.draw().number, 6, "the picture of 80 columns");
    bench.fit_picture(0xEE);
    assert_eq!(bench.draw().value, 25);
    assert_eq!(bench.picture, forty);
}
