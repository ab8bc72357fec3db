//! The TS9347 (request T-10): power-up, both pointers, the commands, and the refusals that differ from
//! the EF9345's.

use second::address::place;
use second::bench::Bench;
use second::pointer::{Pointer, Which};
use second::processor::{Answer, Processor};
use second::random::Random;
use second::{Board, Part};

fn refusal(number: u8) -> Answer {
    Answer { number, value: 0 }
}

/// "14, an unknown part, at power-up and before 12, hands back what 12 does."
#[test]
fn power_up_has_four_boards_and_14_before_12_for_every_other_pair() {
    for part in 0..=255u8 {
        for blocks in 0..=255u8 {
            let (processor, answer) = Processor::power_up_board(part, blocks);
            let (number, board) = match (part, blocks) {
                (0, 2) => (0, Board::TWO),
                (0, 8) => (0, Board::EIGHT),
                (0, 16) => (0, Board::SIXTEEN),
                (1, 32) => (0, Board::TS9347),
                (0 | 1, _) => (12, Board::SIXTEEN),
                _ => (14, Board::SIXTEEN),
            };
            assert_eq!(answer, refusal(number), "part {part}, {blocks} blocks");
            let expected = Processor {
                board,
                ..Processor::power_up()
            };
            assert_eq!(processor, expected, "part {part}, {blocks} blocks");
        }
    }
}

#[test]
fn after_14_and_12_the_memory_is_that_of_16_blocks() {
    for (part, blocks) in [(2, 32), (255, 16), (1, 16), (1, 31), (0, 32)] {
        let (mut processor, _) = Processor::power_up_board(part, blocks);
        assert_eq!(processor.write(&mut [0; 32_768], 0x21, 1).number, 1);
        assert_eq!(processor.write(&mut [0; 16_384], 0x21, 1).number, 0);
    }
}

#[test]
fn a_board_is_named_by_its_own_numbers() {
    for board in Board::ALL {
        let (part, blocks) = board.numbers();
        assert_eq!(Board::named(part, blocks), Ok(board));
        assert_eq!(Part::numbered(part), Some(board.part));
    }
    assert_eq!(Board::TS9347.memory(), 32_768);
    assert_eq!((Part::Ef9345.rom(), Part::Ts9347.rom()), (6_400, 3_840));
}

/// R6 bits 4..0 are Y, bits 7..5 Z4..Z2; R7 bits 5..0 are X, bit 7 is Z0 and bit 6 is Z1; R4 and R5 alike.
#[test]
fn both_pointers_have_one_format() {
    for down in 0..=255u8 {
        for across in 0..=255u8 {
            let high = 4 * usize::from(down / 32);
            let low = match across / 64 {
                0 => 0,
                1 => 2,
                2 => 1,
                _ => 3,
            };
            let expected = Pointer {
                x: usize::from(across % 64),
                y: usize::from(down % 32),
                z: high + low,
            };
            let others = [!down, !across];
            let main = [0, 0, 0, 0, others[0], others[1], down, across];
            assert_eq!(Pointer::of(Part::Ts9347, &main, Which::Main), expected);
            let auxiliary = [0, 0, 0, 0, down, across, others[0], others[1]];
            let pointer = Pointer::of(Part::Ts9347, &auxiliary, Which::Auxiliary);
            assert_eq!(pointer, expected);
            assert_eq!(expected.main_registers(Part::Ts9347), (down, across));
            let registers = expected.auxiliary_registers(Part::Ts9347);
            assert_eq!(registers, (down, across, None));
        }
    }
}

/// "R6 bit 6 is Z3 of the main pointer; the auxiliary one has its own bits in R4."
#[test]
fn r6_bit_6_is_the_main_pointers() {
    let mut registers = [0x91, 0, 0, 0, 0x08, 0x01, 0x09, 0x02];
    for (r4, r6, main, auxiliary) in [
        (0x08, 0x49, 8, 0),
        (0x48, 0x09, 0, 8),
        (0x88, 0x49, 8, 16),
        (0xC8, 0x89, 16, 24),
        (0x28, 0xE9, 28, 4),
    ] {
        (registers[4], registers[6]) = (r4, r6);
        assert_eq!(Pointer::of(Part::Ts9347, &registers, Which::Main).z, main);
        let pointer = Pointer::of(Part::Ts9347, &registers, Which::Auxiliary);
        assert_eq!(pointer.z, auxiliary);
        // The EF9345's auxiliary pointer has it.
        let old = Pointer::of(Part::Ef9345, &registers, Which::Auxiliary);
        assert_eq!(old.z / 8, usize::from(r6 / 64 % 2));
    }
}

#[test]
fn different_places_for_all_32_blocks() {
    let mut seen = vec![false; 32_768];
    for z in 0..32 {
        for y in (0..1).chain(8..32) {
            for x in 0..40 {
                let place = place(x, y, z);
                assert!(!seen[place], "({x}, {y}, {z})");
                seen[place] = true;
            }
        }
    }
    assert_eq!(seen.iter().filter(|is_seen| **is_seen).count(), 32_000);
}

/// A board with any bytes in its memory.
fn any_bench(random: &mut Random) -> Bench {
    let mut bench = Bench::power_up_board(Board::TS9347);
    bench.memory = random.bytes(32_768);
    bench
}

fn set_pointer(bench: &mut Bench, which: Which, pointer: Pointer) {
    let (down, across, _) = pointer.auxiliary_registers(Part::Ts9347);
    let (first, second) = match which {
        Which::Main => (0x26, 0x27),
        Which::Auxiliary => (0x24, 0x25),
    };
    bench.write(first, down);
    bench.write(second, across);
}

#[test]
fn oct_stores_and_reads_in_every_block_by_either_pointer() {
    let mut random = Random::new(47);
    let mut bench = any_bench(&mut random);
    for z in 0..32 {
        for (which, added) in [(Which::Main, 0), (Which::Auxiliary, 4)] {
            for (x, y) in [(0, 0), (39, 0), (31, 8), (32, 8), (39, 31), (7, 20)] {
                // The other pointer is anywhere, also at no legal place.
                for address in 0x24..0x28 {
                    bench.write(address, random.byte());
                }
                set_pointer(&mut bench, which, Pointer { x, y, z });
                let mut expected = bench.memory.clone();
                expected[place(x, y, z)] ^= 0x5A;
                bench.write(0x20, 0x30 + added);
                assert_eq!(bench.write(0x29, expected[place(x, y, z)]).number, 0);
                assert!(bench.memory == expected, "({x}, {y}, {z}) by {which:?}");
                bench.write(0x21, 0);
                assert_eq!(bench.write(0x28, 0x38 + added).number, 0);
                assert_eq!(bench.processor.registers[1], expected[place(x, y, z)]);
            }
        }
    }
}

/// "In blocks Z, Z+1, Z+2, counted modulo 4 inside the district of four blocks", of which there are eight.
#[test]
fn krf_stays_in_its_district() {
    let mut random = Random::new(48);
    let mut bench = any_bench(&mut random);
    for district in 0..8 {
        for (z, blocks) in [
            (0, [0, 1, 2]),
            (1, [1, 2, 3]),
            (2, [2, 3, 0]),
            (3, [3, 0, 1]),
        ] {
            let pointer = Pointer {
                x: 33,
                y: 17,
                z: 4 * district + z,
            };
            set_pointer(&mut bench, Which::Main, pointer);
            let code = [random.byte(), random.byte(), random.byte()];
            let mut expected = bench.memory.clone();
            for byte in 0..3 {
                expected[place(33, 17, 4 * district + blocks[byte])] = code[byte];
            }
            bench.write(0x20, 0x00);
            bench.write(0x22, code[1]);
            bench.write(0x23, code[2]);
            assert_eq!(bench.write(0x29, code[0]).number, 0);
            assert!(bench.memory == expected, "block {}", 4 * district + z);
            for address in 0x21..0x24 {
                bench.write(address, 0);
            }
            assert_eq!(bench.write(0x28, 0x08).number, 0);
            assert_eq!(bench.processor.registers[1..4], code);
        }
    }
}

/// "Increment adds 1 to X of the pointer used [..]. Y and the block stay."
#[test]
fn an_increment_leaves_y_and_the_block() {
    for (command, number, status) in [(0x31, 7, 0x60), (0x39, 7, 0x60), (0x01, 7, 0x60)]
        .into_iter()
        .chain([(0x35, 5, 0x50), (0x3D, 5, 0x50)])
    {
        for (down, block) in [(0xFF, 0xC0), (0x48, 0x40), (0x80, 0x80), (0x1F, 0x00)] {
            for x in [0, 20, 38, 39] {
                let mut bench = Bench::power_up_board(Board::TS9347);
                bench.processor.registers[number - 1] = down;
                bench.processor.registers[number] = block + x;
                let mut expected = bench.processor.registers;
                expected[0] = command;
                expected[number] = block + if x == 39 { 0 } else { x + 1 };
                assert_eq!(bench.write(0x28, command).number, 0);
                assert_eq!(bench.processor.registers, expected);
                let left = if x == 39 { status } else { 0 };
                assert_eq!(bench.processor.status(), left);
            }
        }
    }
}

/// NOP, IND, KRF and OCT, written out. "KRL, moves and everything not among NOP, IND, KRF, OCT: 3."
const LISTED: [u8; 24] = [
    0x00, 0x01, 0x08, 0x09, 0x30, 0x31, 0x34, 0x35, 0x38, 0x39, 0x3C, 0x3D, 0x81, 0x82, 0x83, 0x84,
    0x87, 0x89, 0x8A, 0x8B, 0x8C, 0x8F, 0x90, 0x91,
];

#[test]
fn every_other_command_gets_3() {
    for command in 0..=255u8 {
        let expected = if LISTED.contains(&command) { 0 } else { 3 };
        let mut start = Bench::drawable_board(Board::TS9347);
        start.draw();
        start.processor.lx_main = true;
        start.processor.registers[1..4].copy_from_slice(&[0x11, 0x22, 0x33]);
        let mut tried = start.clone();
        assert_eq!(
            tried.write(0x28, command),
            refusal(expected),
            "{command:02X}"
        );
        if expected == 3 {
            start.processor.registers[0] = command;
            assert_eq!(tried, start, "{command:02X}");
        }
    }
}

/// Of commands that use a pointer none gets 11, since every block is fitted; 4 goes by X and Y alone.
#[test]
fn refusal_4_goes_by_x_and_y_and_there_is_no_11() {
    let mut random = Random::new(49);
    for command in &LISTED[..12] {
        let uses_auxiliary = [0x34, 0x35, 0x3C, 0x3D].contains(command);
        for _ in 0..400 {
            let mut bench = Bench::power_up_board(Board::TS9347);
            for address in 0x24..0x28 {
                bench.write(address, random.byte());
            }
            let [.., r4, r5, r6, r7] = bench.processor.registers;
            let (down, across) = if uses_auxiliary { (r4, r5) } else { (r6, r7) };
            let is_bad = across % 64 > 39 || (1..8).contains(&(down % 32));
            let number = if is_bad { 4 } else { 0 };
            assert_eq!(bench.write(0x28, *command).number, number, "{command:02X}");
        }
    }
}

/// "1 and 12 compare with the part's size."
#[test]
fn refusal_1_asks_for_32_blocks() {
    for length in [0, 2_048, 8_192, 16_384, 32_767, 32_768, 32_769] {
        let mut start = Bench::drawable_board(Board::TS9347);
        start.memory.resize(length, 0);
        let mut tried = start.clone();
        if length == 32_768 {
            assert_eq!(tried.write(0x21, 0x99).number, 0);
            assert_eq!(
                tried.read(0x21),
                Answer {
                    number: 0,
                    value: 0x99
                }
            );
            assert_eq!(tried.turn(1).number, 0);
            assert_eq!(tried.draw().number, 0);
        } else {
            assert_eq!(tried.write(0x2F, 0x99), refusal(1));
            assert_eq!(tried.read(0xFF), refusal(1));
            assert_eq!(tried.turn(2), refusal(1));
            assert_eq!(tried.draw(), refusal(1));
            assert_eq!(tried, start);
        }
    }
}

/// "5 asks for 3,840 bytes for this part", and for 6,400 for the other.
#[test]
fn refusal_5_asks_for_the_parts_own_rom() {
    for (board, right) in [(Board::TS9347, 3_840), (Board::SIXTEEN, 6_400)] {
        for length in [0, 3_839, 3_840, 3_841, 6_399, 6_400, 6_401] {
            let mut start = Bench::drawable_board(board);
            start.rom.resize(length, 0);
            let mut tried = start.clone();
            if length == right {
                assert_eq!(
                    tried.draw(),
                    Answer {
                        number: 0,
                        value: 25
                    }
                );
            } else {
                assert_eq!(tried.draw(), refusal(5), "{board:?}, {length} bytes");
                assert_eq!(tried, start);
            }
        }
    }
}

/// "Refusal 7 as in 40 columns of the page: TGS 7, 6 or 5, or PAT 7; so there is no 80 column page of this
/// part", and no picture of another length.
#[test]
fn refusal_7_for_every_tgs_and_pat_and_8_for_every_ror() {
    for value in 0..=255u8 {
        for length in [40_000, 60_000] {
            let mut start = Bench::drawable_board(Board::TS9347);
            start.picture.resize(length, 0);
            let long = if length == 60_000 { 6 } else { 0 };

            let mut tgs = start.clone();
            tgs.processor.tgs = value;
            let number = if value >= 0x20 { 7 } else { long };
            assert_eq!(tgs.draw().number, number, "TGS {value:02X}");

            let mut pat = start.clone();
            pat.processor.pat = value;
            let number = if value >= 0x80 { 7 } else { long };
            assert_eq!(pat.draw().number, number, "PAT {value:02X}");

            let mut ror = start.clone();
            ror.processor.ror = value;
            let number = if value % 32 < 8 { 8 } else { 0 };
            let number = if long == 6 { 6 } else { number };
            assert_eq!(ror.draw().number, number, "ROR {value:02X}");
        }
    }
}

#[test]
fn a_draw_is_checked_1_5_7_6_8() {
    for wrong in 0..32usize {
        let is_wrong = |check: &usize| wrong >> check & 1 == 1;
        let mut start = Bench::drawable_board(Board::TS9347);
        if is_wrong(&0) {
            start.memory.truncate(16_384);
        }
        if is_wrong(&1) {
            start.rom.resize(6_400, 0);
        }
        if is_wrong(&2) {
            start.processor.tgs = 0xC0;
        }
        if is_wrong(&3) {
            start.picture.resize(60_000, 0);
        }
        if is_wrong(&4) {
            start.processor.ror = 0xE7;
        }
        let mut tried = start.clone();
        match (0..5).find(is_wrong) {
            None => assert_eq!(
                tried.draw(),
                Answer {
                    number: 0,
                    value: 25
                }
            ),
            Some(first) => {
                assert_eq!(tried.draw(), refusal([1, 5, 7, 6, 8][first]));
                assert_eq!(tried, start);
            }
        }
    }
}

#[test]
fn a_phase_change_is_checked_1_9() {
    for phase in 0..=255u8 {
        let mut bench = Bench::drawable_board(Board::TS9347);
        let number = if phase < 2 { 0 } else { 9 };
        assert_eq!(bench.turn(phase), refusal(number));
        bench.memory.truncate(16_384);
        assert_eq!(bench.turn(phase), refusal(1));
    }
}

/// "This address never gets out of the origin block": DOR 7 and ROR 7 to 5 name sixteen pages.
#[test]
fn the_first_block_has_dor_7_as_z4() {
    for number in 0..16u8 {
        let (dor, ror) = (0x80 * (number / 8), 0x20 * (number % 8) + 8);
        let mut bench = Bench::power_up_board(Board::TS9347);
        bench.indirect(7, ror);
        for (other, expected) in [
            (dor, number),
            (dor ^ 0x80, number ^ 8),
            (dor | 0x7F, number),
        ] {
            bench.indirect(4, other);
            let first = 2 * usize::from(expected);
            assert_eq!(bench.processor.first_block(), first);
            // C, B and A are in the district of the first block.
            for (byte, value) in [(0, 0x41), (1, 0x92), (2, 0xA3)] {
                let z = first / 4 * 4 + (first + byte) % 4;
                bench.memory[place(38, 9, z)] = value;
            }
            let cell = bench.processor.page(&bench.memory).cell(2, 38);
            assert_eq!([cell.c, cell.b, cell.a], [0x41, 0x92, 0xA3]);
            bench.memory.fill(0);
        }
    }
}

/// "Row 0 stays on top for all values of TGS 4 to 0", and the other rows follow each other from YOR.
#[test]
fn rows_stand_in_the_order_of_the_page() {
    for yor in 8..32u8 {
        let mut bench = Bench::power_up_board(Board::TS9347);
        bench.indirect(7, 0xE0 + yor);
        bench.indirect(4, 0x80);
        bench.indirect(1, yor % 32);
        for y in (0..1).chain(8..32) {
            bench.memory[place(5, y, 30)] = y as u8;
        }
        let page = bench.processor.page(&bench.memory);
        let mut y = yor;
        assert_eq!(page.cell(0, 5).c, 0);
        for row in 1..25 {
            assert_eq!(page.cell(row, 5).c, y, "row {row} of origin {yor}");
            y = if y == 31 { 8 } else { y + 1 };
        }
    }
}
