//! The application note's 80 column program, run from zero memory: as it is printed, and with the ROR
//! that shows the block of its strings.

use second::address::place;
use second::bench::Bench;
use second::code::Code;
use second::eighty_columns::{program, PRINTED_ROR, STRINGS_ROR};
use second::operation::Operation;

const STRINGS: [&str; 2] = ["ABCDEFGHIJ", "KLMNOPQRST"];

/// Runs the accesses from zero memory and hands over the bench after each.
fn run(ror: u8, mut after: impl FnMut(&Bench, Operation)) -> Bench {
    let mut bench = Bench::power_up();
    bench.rom = rom();
    for operation in program(ror) {
        match operation {
            Operation::Read { address: 0x20 } => {
                let status = bench.read(0x20);
                assert_eq!((status.number, status.value & 0x80), (0, 0), "busy reads 0");
            }
            Operation::Read { address } => {
                // LDA R1 after IND's read form.
                let answer = bench.read(address);
                assert_eq!((address, answer.number, answer.value), (0x21, 0, ror));
            }
            Operation::Write { address, value } => {
                let is_clf = (address, value) == (0x28, 0x05);
                let expected = if is_clf { 3 } else { 0 };
                let answer = bench.write(address, value);
                assert_eq!((answer.number, answer.value), (expected, 0));
            }
            _ => panic!("{operation:?} is no access"),
        }
        after(&bench, operation);
    }
    bench
}

/// A G0 whose characters can be told apart: slice 0 has bits 0 to 5 of the code and slice 1 bit 6. The
/// other slices are 0, and character 0 is blank.
fn rom() -> Vec<u8> {
    let mut rom = vec![0; 6_400];
    for character in 0..128 {
        rom[10 * character] = character as u8 % 64;
        rom[10 * character + 1] = character as u8 / 64;
    }
    rom
}

/// The character that a cell shows with one colour for its 1 bits, if its other pixels are of the other
/// colour.
fn shown(bench: &Bench, row: usize, position: usize, one: u8, zero: u8) -> char {
    let bits = |line: usize| {
        let pixels = bench.narrow_pixels(row, position, line);
        assert!(pixels.iter().all(|pixel| [one, zero].contains(pixel)));
        (0..6).map(move |bit| u8::from(pixels[bit] == one) << bit)
    };
    let (low, high): (u8, u8) = (bits(0).sum(), bits(1).sum());
    (low + 64 * high) as char
}

fn text(bench: &Bench, row: usize, one: u8, zero: u8) -> String {
    (0..10)
        .map(|position| shown(bench, row, position, one, zero))
        .collect()
}

#[test]
fn it_ends_with_its_registers() {
    for ror in [PRINTED_ROR, STRINGS_ROR] {
        let bench = run(ror, |_, _| {});
        let processor = &bench.processor;
        assert_eq!(processor.page_refusal(), None);
        let indirect = [
            processor.tgs,
            processor.mat,
            processor.pat,
            processor.dor,
            processor.ror,
        ];
        assert_eq!(indirect, [0xC0, 0x4C, 0x7F, 0x8F, ror]);
        let registers = [0x87, ror, 0x20, 0x22, 0, 0, 0x2A, 5];
        assert_eq!(processor.registers, registers);
        assert_eq!(processor.status(), 0x00);
    }
    assert_eq!((PRINTED_ROR, STRINGS_ROR), (0x28, 0x48));
    let writes = program(PRINTED_ROR);
    let is_write = |operation: &&Operation| matches!(operation, Operation::Write { .. });
    assert_eq!(writes.iter().filter(is_write).count(), 71);
    assert_eq!(writes.len(), 125);
}

#[test]
fn its_strings_stand_in_block_4_either_way() {
    for ror in [PRINTED_ROR, STRINGS_ROR] {
        let bench = run(ror, |_, _| {});
        let mut expected = vec![0; 16_384];
        for (string, y, nibble) in [(STRINGS[0], 8, 0xC), (STRINGS[1], 10, 0x2)] {
            for (position, character) in string.bytes().enumerate() {
                expected[place(position / 2, y, 4 + position % 2)] = character;
                expected[place(position / 2, y, 6)] = 0x11 * nibble;
            }
        }
        assert_eq!(bench.memory, expected);
    }
}

#[test]
fn its_codes_are_those_of_rows_1_and_3() {
    let bench = run(STRINGS_ROR, |_, _| {});
    let page = bench.processor.page(&bench.memory);
    for row in 0..25 {
        for position in 0..80 {
            let expected = match (row, position) {
                (1, 0..10) => (STRINGS[0].as_bytes()[position], 0xC),
                (3, 0..10) => (STRINGS[1].as_bytes()[position], 0x2),
                _ => (0, 0),
            };
            let Code { c, nibble } = page.code(row, position);
            assert_eq!((c, nibble), expected);
        }
    }
}

/// White and blue: DOR 2..0 and MAT 2..0.
const WHITE: u8 = 7;
const BLUE: u8 = 4;

#[test]
fn its_picture_shows_the_strings() {
    let mut bench = run(STRINGS_ROR, |_, _| {});
    bench.fit_picture(0xEE);
    assert_eq!(bench.draw().value, 25);
    // The negative string flashes: hidden in phase 0, when it is all foreground.
    for position in 0..10 {
        for line in 0..10 {
            assert_eq!(bench.narrow_pixels(1, position, line), [WHITE; 6]);
        }
    }
    assert_eq!(text(&bench, 3, WHITE, BLUE), STRINGS[1]);
    assert_eq!(bench.turn(1).number, 0);
    assert_eq!(bench.draw().value, 1);
    assert_eq!(text(&bench, 1, BLUE, WHITE), STRINGS[0]);
    assert_eq!(text(&bench, 3, WHITE, BLUE), STRINGS[1]);
    for row in 0..25 {
        for position in 0..80 {
            for line in 2..10 {
                let expected = match (row, position, line) {
                    (1, 0..10, _) => WHITE,
                    (3, 0..10, 9) => WHITE,
                    _ => BLUE,
                };
                let pixels = bench.narrow_pixels(row, position, line);
                assert_eq!(pixels, [expected; 6], "row {row}, position {position}");
            }
        }
    }
}

#[test]
fn as_printed_its_picture_shows_no_string() {
    let mut bench = run(PRINTED_ROR, |_, _| {});
    bench.fit_picture(0xEE);
    assert_eq!(bench.draw().value, 25);
    // Blocks 2, 3 and 0 are zero, so that every cell is the blank character 0 on the margin's blue.
    assert_eq!(bench.picture, vec![0x44; 60_000]);
}

#[test]
fn the_strings_roll_up_and_come_back() {
    let mut rows = Vec::new();
    run(STRINGS_ROR, |bench, operation| {
        let is_turn = matches!(operation, Operation::Write { address: 0x29, .. })
            && bench.processor.registers[0] == 0x87;
        if is_turn {
            let page = bench.processor.page(&bench.memory);
            let first = |row: &usize| page.code(*row, 0).c == b'A';
            rows.push((1..25).find(first));
        }
    });
    // Row 1, then off the top to the bottom and upward; origin 31, at which it would be row 2, is
    // left out.
    let mut expected = vec![Some(1)];
    expected.extend((3..=24).rev().map(Some));
    expected.push(Some(1));
    assert_eq!(rows, expected);
}
