//! The boards: pages of the smaller ones, the power-up of each, and every command in every block. The library
//! answers, leaves and draws what the second program does.

use binturamis::{Processor, Refusal, PROCESSOR_BYTES};
use compare::asked::Asked;
use compare::difference::assert_same;
use compare::lengths::Lengths;
use compare::page::{pages, Page};
use compare::pair::Pair;
use compare::seen::SeenBoard;
use second::pointer::Pointer;
use second::random::Random;
use second::{Board, Mode, Operation, Part};

use crate::drawn::{draw, marked, shown, wanted};

const MODES: [Mode; 2] = [Mode::Forty, Mode::Eighty];

/// Compares pages of a mode on a board, every second one with all its rows marked.
fn compare_pages(board: Board, mode: Mode, pages: u64) -> Result<SeenBoard, Refusal> {
    let mut seen = SeenBoard::default();
    for seed in 0..pages {
        let mut page = match seed % 2 {
            0 => Page::fresh_on(board, mode, seed / 2),
            _ => Page::partly_marked_on(board, mode, seed / 2),
        };
        let processor = marked(&shown(&mut page)?, |row| u8::from(page.marks[row]));
        let (redrawn, picture) = draw(processor, &page)?;
        assert_same(&page, &picture, &wanted(&page));
        assert_eq!(usize::from(redrawn.count()), page.marked_rows().count());
        seen.look(&page);
    }
    Ok(seen)
}

#[test]
fn pages_of_smaller_boards_are_the_second_programs() -> Result<(), Refusal> {
    let pages = pages(800);
    for board in [Board::TWO, Board::EIGHT] {
        for mode in MODES {
            let seen = compare_pages(board, mode, pages)?;
            println!("pages of {board:?} compared, {mode:?}: {pages}\n{seen}");
            seen.assert_varied(mode, board, 2_000);
        }
    }
    Ok(())
}

/// Every number of blocks with either part and with some that there are not, and every number of a part with
/// the blocks of each board and with some that none has.
fn asked_boards() -> Vec<(u8, u8)> {
    let mut asked = Vec::new();
    for number in 0..=255 {
        asked.extend([0, 1, 2, 255].map(|part| (part, number)));
        asked.extend([2, 8, 16, 32, 0, 255].map(|blocks| (number, blocks)));
    }
    asked
}

/// Each power-up, from any bytes before it, and then an operation with the memory of each board.
#[test]
fn power_up_is_the_second_programs_for_every_part_and_number_of_blocks() {
    let mut random = Random::new(12);
    let mut numbers = [0; 15];
    let memory = random.bytes(Lengths::WHOLE.memory);
    let mut pair = Pair::begin(12, memory, random.bytes(Lengths::WHOLE.rom));
    for (part, blocks) in asked_boards() {
        let told = format!("part {part}, {blocks} blocks");
        pair.library.processor = any_processor(&mut random);
        let report = pair.apply(Asked::right(Operation::PowerUp { part, blocks }));
        numbers[usize::from(report.number)] += 1;
        let bytes = pair.library.processor.bytes();
        assert_eq!(*bytes, report.packed(), "{told}");
        for board in Board::ALL {
            let lengths = Lengths::right(Some(Mode::Forty), board);
            let operation = Operation::Write {
                address: 0x21,
                value: random.byte(),
            };
            let report = pair.apply(Asked::with(operation, lengths));
            let is_right = (report.part, report.blocks) == board.numbers();
            assert_eq!(report.number, u8::from(!is_right), "{told}");
        }
    }
    // Each of the four boards is asked for twice. The EF9345 has 253 other numbers of blocks and the TS9347
    // 255, and eight of their twelve askings by the second list are none of the four boards.
    assert_eq!(numbers[0], 8);
    assert_eq!(numbers[12], 253 + 255 + 8);
    assert_eq!(numbers[14], 2 * 256 + 254 * 6);
    assert_eq!(numbers.iter().sum::<usize>(), 256 * 10);
}

/// Power-up leaves nothing of the bytes before it.
fn any_processor(random: &mut Random) -> Processor {
    let mut bytes = [0; PROCESSOR_BYTES];
    bytes.fill_with(|| random.byte());
    Processor::of_bytes(bytes)
}

const COMMANDS: [u8; 16] = [
    0x00, 0x01, 0x08, 0x09, 0x30, 0x31, 0x34, 0x35, 0x38, 0x39, 0x3C, 0x3D, 0x50, 0x51, 0x58, 0x59,
];

/// At the edges of the two parts of a row, and beyond the last column; the service row, a row that there
/// is not, and the first and the last of the others.
const PLACES: [(usize, usize); 8] = [
    (0, 0),
    (39, 0),
    (31, 8),
    (32, 8),
    (39, 31),
    (40, 8),
    (0, 7),
    (63, 1),
];

/// The writes that point both pointers and fill the registers, and the one that executes.
fn writes(part: Part, pointer: Pointer, command: u8, random: &mut Random) -> [(u8, u8); 8] {
    let (down, across) = pointer.main_registers(part);
    let (r4, r5, z3) = pointer.auxiliary_registers(part);
    [
        (0x21, random.byte()),
        (0x22, random.byte()),
        (0x23, random.byte()),
        (0x24, r4),
        (0x25, r5),
        (0x26, down | if z3 == Some(true) { 0x40 } else { 0 }),
        (0x27, across),
        (0x28, command),
    ]
}

/// How often the commands got 0, 3, 4 and 11 on a board.
fn compare_commands(board: Board, mode: Mode) -> [usize; 4] {
    let mut random = Random::new(board.blocks as u64);
    let memory = random.bytes(Lengths::WHOLE.memory);
    let rom = random.bytes(Lengths::WHOLE.rom);
    let mut pair = Pair::begin_board(11, board, memory, rom);
    let write = |pair: &mut Pair, (address, value)| {
        let operation = Operation::Write { address, value };
        pair.apply(Asked::right(operation)).number
    };
    let mut numbers = [0; 4];
    let named = 0..board.part.named_blocks();
    for (z, (x, y)) in named.flat_map(|z| PLACES.map(|place| (z, place))) {
        // The page at 0, and the one at 2, whose third block is 0; of the TS9347 also those at 16 and 18.
        let ror = random.choice(&[0x08, 0x28]);
        let dor = match board.part {
            Part::Ef9345 => 0,
            Part::Ts9347 => random.choice(&[0x00, 0x80]),
        };
        for (value, command) in [(mode.tgs(), 0x81), (dor, 0x84), (ror, 0x87)] {
            write(&mut pair, (0x21, value));
            write(&mut pair, (0x28, command));
        }
        pair.apply(Asked::right(Operation::Draw));
        for command in COMMANDS {
            let mut last = 0;
            for access in writes(board.part, Pointer { x, y, z }, command, &mut random) {
                last = write(&mut pair, access);
            }
            let kind = [0, 3, 4, 11].iter().position(|number| *number == last);
            numbers[kind.unwrap_or_else(|| panic!("{command:02X} got {last}"))] += 1;
        }
        // The rows that their stores have marked.
        pair.apply(Asked::right(Operation::Draw));
    }
    numbers
}

#[test]
fn every_command_in_every_block_is_the_second_programs() {
    // Five of the eight places are legal; 4 comes before 11.
    let (legal, bad) = (5, 16 * 16 * 3);
    for mode in MODES {
        // OCT's eight forms in blocks 0 and 1.
        let two = legal * 8 * 2;
        let all = legal * 16 * 16;
        assert_eq!(compare_commands(Board::TWO, mode), [two, 0, bad, all - two]);
        assert_eq!(
            compare_commands(Board::EIGHT, mode),
            [all / 2, 0, bad, all / 2]
        );
        assert_eq!(compare_commands(Board::SIXTEEN, mode), [all, 0, bad, 0]);
    }
}

/// The TS9347 has no KRL, of which 3 comes before 4, and every block.
#[test]
fn every_command_in_every_block_of_the_ts9347_is_the_second_programs() {
    let numbers = compare_commands(Board::TS9347, Mode::Forty);
    assert_eq!(numbers, [5 * 12 * 32, 8 * 4 * 32, 3 * 12 * 32, 0]);
}
