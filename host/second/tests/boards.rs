//! Boards of the EF9345 with fewer blocks (request T-06): power-up, the address answer, refusals 1, 11 and 12, and
//! what is drawn and read where a block is not fitted.

use second::address::{address, place, Address};
use second::bench::Bench;
use second::cell::Cell;
use second::code::Code;
use second::half::shows_lower;
use second::operation::Operation;
use second::pointer::Pointer;
use second::processor::{Answer, Processor};
use second::random::Random;
use second::rules::PageRules;
use second::sequence::Sequence;
use second::{Board, Part};

const BOARDS: [Board; 3] = [Board::TWO, Board::EIGHT, Board::SIXTEEN];

#[test]
fn power_up_has_three_boards_and_12_for_every_other_number() {
    for blocks in 0..=255u8 {
        let (processor, answer) = Processor::power_up_board(0, blocks);
        let is_board = [2, 8, 16].contains(&blocks);
        let (fitted, number) = if is_board { (blocks, 0) } else { (16, 12) };
        assert_eq!(answer, Answer { number, value: 0 }, "{blocks} blocks");
        let expected = Processor {
            board: Board {
                part: Part::Ef9345,
                blocks: usize::from(fitted),
            },
            ..Processor::power_up()
        };
        assert_eq!(processor, expected);
        assert_eq!(processor.memory_length(), 1_024 * usize::from(fitted));
    }
    assert_eq!(Processor::power_up().board, Board::SIXTEEN);
}

#[test]
fn after_12_the_memory_is_that_of_16_blocks() {
    let (mut processor, _) = Processor::power_up_board(0, 4);
    assert_eq!(processor.write(&mut [0; 4_096], 0x21, 1).number, 1);
    assert_eq!(processor.write(&mut [0; 16_384], 0x21, 1).number, 0);
}

#[test]
fn the_address_answer_is_one_of_three() {
    for blocks in [2, 8, 16] {
        for z in 0..16 {
            for y in 0..32 {
                for x in 0..64 {
                    let expected = match (x > 39 || (1..8).contains(&y), z >= blocks) {
                        (true, _) => Address::Illegal,
                        (false, true) => Address::NotFitted,
                        (false, false) => Address::Fitted(place(x, y, z)),
                    };
                    assert_eq!(address(x, y, z, blocks), expected);
                    if let Address::Fitted(place) = expected {
                        assert!(place < 1_024 * blocks);
                    }
                }
            }
        }
    }
}

#[test]
fn refusal_1_compares_with_the_size_chosen() {
    let refusal = Answer {
        number: 1,
        value: 0,
    };
    for board in BOARDS {
        let right = 1_024 * board.blocks;
        for length in [0, 1_024, 2_048, 8_192, 16_384, right - 1, right + 1] {
            let mut start = Bench::power_up_board(board);
            start.indirect(7, 8);
            start.memory.resize(length, 0);
            let mut tried = start.clone();
            if length == right {
                assert_eq!(tried.write(0x21, 0x99).number, 0);
                assert_eq!(tried.read(0x21).number, 0);
                assert_eq!(tried.turn(1).number, 0);
                assert_eq!(tried.draw().number, 0);
            } else {
                assert_eq!(tried.write(0x2F, 0x99), refusal);
                assert_eq!(tried.read(0xFF), refusal);
                assert_eq!(tried.turn(2), refusal);
                assert_eq!(tried.draw(), refusal);
                assert_eq!(tried, start);
            }
        }
    }
}

const KRF: [u8; 4] = [0x00, 0x01, 0x08, 0x09];
const KRL: [u8; 4] = [0x50, 0x51, 0x58, 0x59];
const OCT_MAIN: [u8; 4] = [0x30, 0x31, 0x38, 0x39];
const OCT_AUXILIARY: [u8; 4] = [0x34, 0x35, 0x3C, 0x3D];
/// MVB, MVD and MVT: one byte, two and three.
const MOVES: [[u8; 4]; 3] = [
    [0xD5, 0xD6, 0xD9, 0xDA],
    [0xE5, 0xE6, 0xE9, 0xEA],
    [0xF5, 0xF6, 0xF9, 0xFA],
];
const WITHOUT_BYTES: [u8; 12] = [
    0x81, 0x82, 0x83, 0x84, 0x87, 0x89, 0x8A, 0x8B, 0x8C, 0x8F, 0x90, 0x91,
];

/// The blocks whose commands are accepted on a board, written out.
fn accepted_blocks(command: u8, blocks: usize) -> Vec<usize> {
    let one_byte = [OCT_MAIN, OCT_AUXILIARY, MOVES[0]]
        .concat()
        .contains(&command);
    match (blocks, one_byte) {
        (2, true) => vec![0, 1],
        // MVD's two bytes are in blocks 0 and 1, or 1 and 2, or 3 and 0.
        (2, false) if MOVES[1].contains(&command) => vec![0],
        // Three bytes are in three of the four blocks of a district, and KRL's two in the first two
        // and the second two: the board has two blocks of one district.
        (2, false) => vec![],
        (8, _) => (0..8).collect(),
        _ => (0..16).collect(),
    }
}

/// A bench whose two pointers are in block `z`, with bytes of a kind everywhere.
fn pointed(board: Board, z: usize) -> Bench {
    let mut bench = Bench::power_up_board(board);
    for (at, byte) in bench.memory.iter_mut().enumerate() {
        *byte = (at % 251) as u8;
    }
    let pointer = Pointer { x: 39, y: 8, z };
    let (r6, r7) = pointer.main_registers(Part::Ef9345);
    let (r4, r5, z3) = pointer.auxiliary_registers(Part::Ef9345);
    let r6 = r6 + if z3 == Some(true) { 0x40 } else { 0 };
    bench.processor.registers = [0x91, 0x11, 0x22, 0x33, r4, r5, r6, r7];
    bench.processor.lx_main = true;
    bench.processor.lx_auxiliary = true;
    bench.processor.marks = [false; 25];
    bench
}

#[test]
fn refusal_11_looks_at_every_byte_of_a_command() {
    let commands = [[KRF, KRL, OCT_MAIN, OCT_AUXILIARY].concat(), MOVES.concat()].concat();
    for board in BOARDS {
        for z in 0..16 {
            for command in commands.iter().copied() {
                let fitted = accepted_blocks(command, board.blocks).contains(&z);
                let number = if fitted { 0 } else { 11 };
                let told = format!("{command:02X} in block {z} of {board:?}");
                let mut start = pointed(board, z);
                start.processor.registers[0] = command;
                let mut read = start.clone();
                assert_eq!(
                    read.read(0x2A),
                    Answer {
                        number,
                        value: 0x22
                    },
                    "{told}"
                );
                assert_eq!(read == start, number == 11, "{told}");
                let mut written = pointed(board, z);
                assert_eq!(written.write(0x28, command).number, number, "{told}");
                assert_eq!(written == start, number == 11, "{told}");
            }
        }
    }
}

#[test]
fn commands_without_bytes_never_get_11() {
    for command in WITHOUT_BYTES {
        assert_eq!(pointed(Board::TWO, 15).write(0x28, command).number, 0);
    }
}

/// A move looks at every byte of both pointers, whichever of them is the source.
#[test]
fn refusal_11_looks_at_both_pointers_of_a_move() {
    for board in BOARDS {
        for (main, auxiliary) in (0..16).flat_map(|main| (0..16).map(move |other| (main, other))) {
            for command in MOVES.concat() {
                let blocks = accepted_blocks(command, board.blocks);
                let both = blocks.contains(&main) && blocks.contains(&auxiliary);
                let mut bench = Bench::power_up_board(board);
                let at = |z| Pointer { x: 7, y: 20, z };
                bench.point(at(main), at(auxiliary));
                bench.write(0x20, command);
                let before = bench.clone();
                let number = bench.read(0x2A).number;
                let told = format!("{command:02X}, {main} and {auxiliary} of {board:?}");
                assert_eq!(number, if both { 0 } else { 11 }, "{told}");
                assert_eq!(bench == before, !both, "{told}");
                assert_eq!(bench.processor.busy, both, "{told}");
            }
        }
    }
}

/// OCT asks the pointer that it uses alone.
#[test]
fn the_other_pointer_may_be_in_any_block() {
    let fitted = Pointer { x: 0, y: 8, z: 1 };
    for (command, registers) in [(0x38, [6, 7]), (0x3C, [4, 5])] {
        let mut bench = pointed(Board::TWO, 7);
        let (down, across) = fitted.main_registers(Part::Ef9345);
        bench.processor.registers[registers[0]] = down;
        bench.processor.registers[registers[1]] = across;
        assert_eq!(bench.write(0x28, command).number, 0);
    }
}

#[test]
fn an_access_is_checked_1_2_3_4_11() {
    for wrong in 0..32usize {
        let is_wrong = |check: usize| wrong >> check & 1 == 1;
        let mut bench = pointed(Board::TWO, if is_wrong(4) { 2 } else { 1 });
        bench.processor.registers[0] = if is_wrong(2) { 0x02 } else { 0x30 };
        if is_wrong(0) {
            bench.memory = vec![0; 16_384];
        }
        if is_wrong(3) {
            bench.processor.registers[7] |= 0x3F;
        }
        let address = if is_wrong(1) { 0x39 } else { 0x29 };
        let first = (0..5).find(|check| is_wrong(*check));
        let expected = first.map_or(0, |check| [1, 2, 3, 4, 11][check]);
        assert_eq!(bench.clone().write(address, 0x55).number, expected);
        assert_eq!(bench.read(address).number, expected);
    }
}

#[test]
fn after_11_the_register_access_has_happened_and_nothing_else() {
    for command in [KRF, KRL, OCT_MAIN].concat() {
        for register in 1..6u8 {
            let mut start = pointed(Board::TWO, 2);
            start.processor.registers[0] = command;
            let held = start.processor.registers[usize::from(register)];

            let mut read = start.clone();
            let answer = read.read(0x28 + register);
            assert_eq!((answer.number, answer.value), (11, held));
            assert_eq!(read, start);

            let mut written = start.clone();
            let answer = written.write(0x28 + register, held ^ 0x01);
            assert_eq!((answer.number, answer.value), (11, 0));
            start.processor.registers[usize::from(register)] = held ^ 0x01;
            assert_eq!(written, start);
        }
    }
}

/// A board whose page can be drawn, in 40 columns or in 80, with a ROM in which slice s of G0 is
/// 10 + s for character 0 and 20 + s for character 1, and 0 for every other.
fn shown(board: Board, ror: u8, tgs: u8) -> Bench {
    let mut bench = Bench::power_up_board(board);
    bench.indirect(7, ror);
    bench.indirect(1, tgs);
    bench.fit_picture(0xEE);
    for slice in 0..10 {
        bench.rom[slice] = 10 + slice as u8;
        bench.rom[10 + slice] = 20 + slice as u8;
    }
    bench
}

/// The pixels of bits, lowest first, in one colour on another.
fn pixels<const N: usize>(bits: u8, one: u8, zero: u8) -> [u8; N] {
    std::array::from_fn(|pixel| if bits >> pixel & 1 == 1 { one } else { zero })
}

#[test]
fn a_page_at_0_of_2_blocks_is_plain_text_in_80_columns() {
    let mut bench = shown(Board::TWO, 8, 0xC0);
    bench.indirect(4, 0x35);
    bench.indirect(2, 0x02);
    for (x, z, value) in [(0, 0, 1), (0, 1, 0), (39, 1, 1), (39, 0, 0x81)] {
        assert_eq!(bench.store_byte(Pointer { x, y: 8, z }, value).number, 0);
    }
    let attributes = Pointer { x: 0, y: 8, z: 2 };
    assert_eq!(bench.store_byte(attributes, 0xFF).number, 11);
    let pointer = Pointer { x: 0, y: 8, z: 0 };
    let code = Code { c: 2, nibble: 15 };
    assert_eq!(bench.store_code(pointer, code).number, 11);
    assert_eq!(bench.draw().number, 0);
    for line in 0..10 {
        let slice = |first: u8| first + line as u8;
        assert_eq!(bench.narrow_pixels(1, 0, line), pixels(slice(20), 5, 2));
        assert_eq!(bench.narrow_pixels(1, 1, line), pixels(slice(10), 5, 2));
        assert_eq!(bench.narrow_pixels(1, 79, line), pixels(slice(20), 5, 2));
        let window = if line < 2 { [5, 5, 5, 2, 2, 2] } else { [2; 6] };
        assert_eq!(bench.narrow_pixels(1, 78, line), window);
    }
}

/// The third block of a page at 2 is 0: A alone is fitted, and C and B are 0.
#[test]
fn a_page_at_2_of_2_blocks_has_its_third_block_at_0() {
    let mut bench = shown(Board::TWO, 0x28, 0);
    bench.indirect(3, 0x40);
    bench.store_byte(Pointer { x: 5, y: 8, z: 0 }, 0x61);
    assert_eq!(bench.draw().value, 25);
    for line in 0..10 {
        let slice = 10 + line as u8;
        assert_eq!(bench.pixels(1, 5, line), pixels(slice, 6, 1));
        assert_eq!(bench.pixels(1, 6, line), [0; 8]);
    }
    // A3 in block 0 flashes, and marks its row.
    bench.store_byte(Pointer { x: 5, y: 8, z: 0 }, 0x69);
    assert_eq!(bench.draw().value, 1);
    assert_eq!(bench.turn(1).number, 0);
    assert_eq!(bench.draw().value, 1);
    assert_eq!(bench.pixels(1, 5, 0), [1; 8]);
    // In 80 columns the same byte holds the attributes of two characters 0.
    bench.indirect(1, 0xC0);
    bench.indirect(4, 0x47);
    bench.store_byte(Pointer { x: 5, y: 8, z: 0 }, 0x81);
    bench.fit_picture(0xEE);
    assert_eq!(bench.draw().value, 25);
    assert_eq!(bench.narrow_pixels(1, 10, 0), pixels(10, 0, 7));
    assert_eq!(bench.narrow_pixels(1, 11, 0), pixels(10, 4, 0));
}

#[test]
fn a_page_that_is_not_fitted_shows_character_0_in_black() {
    let mut bench = shown(Board::EIGHT, 0xE8, 0);
    bench.memory.fill(0xFF);
    bench.rom.fill(0xFF);
    assert_eq!(bench.draw().value, 25);
    assert!(bench.picture.iter().all(|byte| *byte == 0));
    bench.turn(1);
    assert_eq!(bench.processor.marks, [false; 25]);
    bench.store_byte(Pointer { x: 0, y: 8, z: 7 }, 1);
    assert_eq!(bench.processor.marks, [false; 25]);
}

#[test]
fn slices_that_are_not_fitted_are_0() {
    // G'0 in block 9, G'10 and G'11 in blocks 10 and 11, quadrichrome sets from block 8 on.
    for (dor, b, colour) in [
        (0x09, 0x80, 4),
        (0x50, 0xA0, 4),
        (0x50, 0xB0, 4),
        // Rank 0 is green, the lowest of the palette 74.
        (0x80, 0xC0, 2),
        (0x80, 0xF8, 2),
    ] {
        let mut bench = shown(Board::EIGHT, 8, 0);
        bench.memory[3 * 1_024..].fill(0xFF);
        bench.indirect(4, dor);
        let cell = Cell {
            part: Part::Ef9345,
            c: 0x4B,
            b,
            a: 0x74,
        };
        assert_eq!(
            bench.store_cell(Pointer { x: 0, y: 8, z: 0 }, cell).number,
            0
        );
        bench.draw();
        for line in 0..10 {
            assert_eq!(bench.pixels(1, 0, line), [colour; 8], "B {b:02X}");
        }
        let places = bench.processor.reading_list(&bench.memory, 1);
        assert!(places.iter().all(|place| *place < 3 * 1_024), "B {b:02X}");
    }
}

/// The palette is A: where that is not fitted it has no colour, and every rank is white.
#[test]
fn a_palette_that_is_not_fitted_is_white() {
    let mut bench = shown(Board::TWO, 8, 0);
    bench.store_byte(Pointer { x: 0, y: 8, z: 0 }, 0x4B);
    bench.store_byte(Pointer { x: 0, y: 8, z: 1 }, 0xC0);
    bench.draw();
    assert_eq!(bench.pixels(1, 0, 0), [7; 8]);
    assert_eq!(bench.pixels(1, 1, 0), [0; 8]);
}

/// Rows 1 and 2 have the same C and B, and an A that is not fitted is the same in both.
#[test]
fn the_same_three_bytes_count_a_byte_that_is_not_fitted_as_0() {
    let mut bench = shown(Board::TWO, 8, 0);
    for y in [8, 9, 10] {
        bench.store_byte(Pointer { x: 3, y, z: 0 }, 0x41);
        bench.store_byte(Pointer { x: 3, y, z: 1 }, 0x02);
    }
    let page = bench.processor.page(&bench.memory);
    let halves = [1, 2, 3].map(|row| shows_lower(&page, row, 3));
    assert_eq!(halves, [false, true, false]);
}

/// The 16 block board whose further blocks are all 0.
fn with_all_blocks(bench: &Bench) -> Bench {
    let mut full = bench.clone();
    full.processor.board = Board::SIXTEEN;
    full.memory.resize(16_384, 0);
    full
}

#[test]
fn a_board_shows_what_the_full_one_shows_with_0_in_its_further_blocks() {
    let mut compared = 0;
    for (board, seed) in [Board::TWO, Board::EIGHT]
        .into_iter()
        .flat_map(|board| (0..12).map(move |seed| (board, seed)))
    {
        let mut sequence = Sequence::new(seed);
        let mut bench = Bench::power_up_board(board);
        bench.memory = sequence.memory(board.blocks);
        bench.rom = Random::new(seed).bytes(6_400);
        for _ in 0..600 {
            let operation = sequence.operation(&bench.processor, &bench.memory);
            let answer = bench.apply_with(&PageRules, operation);
            if operation == Operation::Draw && answer.number == 0 {
                compare_with_full(&bench);
                compared += 1;
            }
        }
    }
    assert!(compared > 500, "only {compared} pages");
}

fn compare_with_full(bench: &Bench) {
    let full = with_all_blocks(bench);
    assert!(bench.picture == full.processor.fresh(&full.memory, &full.rom));
    for row in 0..25 {
        let mut places = full.processor.reading_list(&full.memory, row);
        places.retain(|place| *place < bench.memory.len());
        assert_eq!(bench.processor.reading_list(&bench.memory, row), places);
    }
}
