//! Every refusal by its number, the order of the checks, and what stays as it was.

use second::bench::Bench;
use second::processor::{Answer, Processor};
use second::{Board, Mode};

/// A state with a different value in each field, so that a change of any field is seen.
fn state(command: u8) -> Processor {
    let mut marks = [false; 25];
    for row in [0, 3, 7, 24] {
        marks[row] = true;
    }
    Processor {
        registers: [command, 0x11, 0x22, 0x33, 0x0A, 0x85, 0xCB, 0x47],
        tgs: 0x01,
        mat: 0x4C,
        pat: 0x48,
        dor: 0x13,
        ror: 0x6A,
        lx_main: true,
        lx_auxiliary: false,
        busy: false,
        phase: 1,
        marks,
        board: Board::SIXTEEN,
    }
}

fn bench(command: u8) -> Bench {
    Bench {
        processor: state(command),
        memory: (0..16_384).map(|at| (at % 251) as u8).collect(),
        rom: (0..6_400).map(|at| (at % 241) as u8).collect(),
        picture: vec![0x5A; 40_000],
    }
}

/// The same in a mode, with a picture of its length.
fn bench_of(mode: Mode) -> Bench {
    let mut bench = bench(0x30);
    bench.processor.tgs += mode.tgs();
    bench.picture.resize(mode.picture(), 0x5A);
    bench
}

const MODES: [Mode; 2] = [Mode::Forty, Mode::Eighty];

/// The bytes that are refused, written out: KRL's four and the twelve of the moves are no longer among
/// them.
fn refused_bytes() -> Vec<u8> {
    let mut bytes: Vec<u8> = Vec::new();
    bytes.extend(0x02..=0x07);
    bytes.extend(0x0A..=0x2F);
    bytes.extend([0x32, 0x33, 0x36, 0x37, 0x3A, 0x3B, 0x3E, 0x3F]);
    bytes.extend(0x40..=0x4F);
    bytes.extend(0x52..=0x57);
    bytes.extend(0x5A..=0x80);
    bytes.extend([0x85, 0x86, 0x88, 0x8D, 0x8E]);
    bytes.extend(0x92..=0xD4);
    bytes.extend([0xD7, 0xD8]);
    bytes.extend(0xDB..=0xE4);
    bytes.extend([0xE7, 0xE8]);
    bytes.extend(0xEB..=0xF4);
    bytes.extend([0xF7, 0xF8]);
    bytes.extend(0xFB..=0xFF);
    bytes
}

const KRF: [u8; 4] = [0x00, 0x01, 0x08, 0x09];
const KRL: [u8; 4] = [0x50, 0x51, 0x58, 0x59];
const OCT_MAIN: [u8; 4] = [0x30, 0x31, 0x38, 0x39];
const OCT_AUXILIARY: [u8; 4] = [0x34, 0x35, 0x3C, 0x3D];
const MOVES: [u8; 12] = [
    0xD5, 0xD6, 0xD9, 0xDA, 0xE5, 0xE6, 0xE9, 0xEA, 0xF5, 0xF6, 0xF9, 0xFA,
];

#[test]
fn every_command_byte_is_classified() {
    assert_eq!(refused_bytes().len() + 40, 256);
    for command in 0..=255 {
        let expected = if refused_bytes().contains(&command) {
            3
        } else {
            0
        };
        let mut by_write = bench(0x91);
        assert_eq!(by_write.write(0x28, command).number, expected);
        let mut by_read = bench(command);
        assert_eq!(by_read.read(0x2E).number, expected);
        let mut not_asked = bench(command);
        assert_eq!(not_asked.read(0x26).number, 0);
        assert_eq!(not_asked, bench(command));
    }
}

/// The number that a command gets when the main, the auxiliary, or both pointers are not legal. A move
/// uses both.
fn expected_with_pointers(command: u8, main_legal: bool, auxiliary_legal: bool) -> u8 {
    let is_move = MOVES.contains(&command);
    let main = is_move || [KRF, KRL, OCT_MAIN].concat().contains(&command);
    let auxiliary = is_move || OCT_AUXILIARY.contains(&command);
    if refused_bytes().contains(&command) {
        3
    } else if (main && !main_legal) || (auxiliary && !auxiliary_legal) {
        4
    } else {
        0
    }
}

#[test]
fn refusal_4_looks_at_the_pointer_that_is_used() {
    let bad_main: [(u8, u8); 5] = [(0x08, 40), (0x08, 63), (0x01, 0), (0x07, 0), (0x21, 0)];
    let bad_auxiliary = bad_main;
    for command in 0..=255 {
        for (main_legal, auxiliary_legal) in [(false, true), (true, false), (false, false)] {
            for at in 0..bad_main.len() {
                let mut bench = bench(command);
                if !main_legal {
                    (bench.processor.registers[6], bench.processor.registers[7]) = bad_main[at];
                }
                if !auxiliary_legal {
                    (bench.processor.registers[4], bench.processor.registers[5]) =
                        bad_auxiliary[at];
                }
                let expected = expected_with_pointers(command, main_legal, auxiliary_legal);
                assert_eq!(bench.read(0x2A).number, expected, "command {command:02X}");
            }
        }
    }
}

#[test]
fn the_edges_of_a_legal_pointer() {
    for y in 0..32u8 {
        for x in 0..64u8 {
            let mut bench = bench(0x38);
            bench.processor.registers[6] = y;
            bench.processor.registers[7] = x;
            let legal = x <= 39 && (y == 0 || y >= 8);
            assert_eq!(bench.read(0x29).number, if legal { 0 } else { 4 });
        }
    }
}

#[test]
fn after_3_or_4_the_register_access_has_happened_and_nothing_else() {
    // 05, 52 and the codes beside those of the moves are not listed; KRF, KRL and OCT with increment, and
    // the moves, have X = 40.
    for (command, number) in [
        (0x05, 3),
        (0x52, 3),
        (0xD4, 3),
        (0xE7, 3),
        (0xFB, 3),
        (0xD5, 4),
        (0xEA, 4),
        (0xF9, 4),
        (0x01, 4),
        (0x09, 4),
        (0x51, 4),
        (0x59, 4),
        (0x31, 4),
        (0x35, 4),
        (0x3D, 4),
    ] {
        for register in 1..8u8 {
            let mut start = bench(command);
            start.processor.registers[7] = 0x28;
            start.processor.registers[5] = 0x28;
            let held = start.processor.registers[usize::from(register)];

            let mut read = start.clone();
            let answer = read.read(0x28 + register);
            let value = held;
            assert_eq!(answer, Answer { number, value });
            assert_eq!(read, start);

            let mut written = start.clone();
            let value = held | 0x40;
            let answer = written.write(0x28 + register, value);
            assert_eq!(answer, Answer { number, value: 0 });
            start.processor.registers[usize::from(register)] = value;
            assert_eq!(written, start);
        }
    }
}

#[test]
fn a_refused_status_read_still_returns_the_status() {
    let mut bench = bench(0x05);
    let answer = bench.read(0x28);
    assert_eq!((answer.number, answer.value), (3, 0x60));
    assert_eq!(bench.processor.registers[0], 0x05);
}

#[test]
fn a_refused_write_of_the_command_keeps_the_command() {
    let mut written = bench(0x91);
    assert_eq!(written.write(0x28, 0x05).number, 3);
    assert_eq!(written, bench(0x05));
}

#[test]
fn the_order_of_the_checks_of_an_access() {
    for memory_wrong in [false, true] {
        for address_wrong in [false, true] {
            for command_wrong in [false, true] {
                for pointer_wrong in [false, true] {
                    let mut bench = bench(if command_wrong { 0x02 } else { 0x30 });
                    if memory_wrong {
                        bench.memory.push(0);
                    }
                    if pointer_wrong {
                        bench.processor.registers[7] = 0x3F;
                    }
                    let address = if address_wrong { 0x3A } else { 0x2A };
                    let expected = match (memory_wrong, address_wrong) {
                        (true, _) => 1,
                        (false, true) => 2,
                        (false, false) if command_wrong => 3,
                        (false, false) if pointer_wrong => 4,
                        (false, false) => 0,
                    };
                    assert_eq!(bench.clone().write(address, 0x22).number, expected);
                    assert_eq!(bench.read(address).number, expected);
                }
            }
        }
    }
}

#[test]
fn refusal_2_for_every_other_address() {
    for address in 0..=255u8 {
        let mut written = bench(0x30);
        let answer = written.write(address, 0x08);
        let mut read = bench(0x30);
        let value = read.read(address);
        if address >> 4 == 2 {
            assert_eq!(answer.number, 0);
            assert_eq!(value.number, 0);
        } else {
            let refusal = Answer {
                number: 2,
                value: 0,
            };
            assert_eq!((answer, value), (refusal, refusal));
            assert_eq!((written, read), (bench(0x30), bench(0x30)));
        }
    }
}

#[test]
fn refusal_1_for_every_wrong_length_of_memory() {
    let refusal = Answer {
        number: 1,
        value: 0,
    };
    for length in [0, 1, 16_383, 16_385, 32_768] {
        let mut start = bench(0x30);
        start.memory.resize(length, 0x77);
        let mut tried = start.clone();
        assert_eq!(tried.write(0x29, 0x99), refusal);
        assert_eq!(tried.read(0x21), refusal);
        assert_eq!(tried.write(0xFF, 0x99), refusal);
        assert_eq!(tried.turn(0), refusal);
        assert_eq!(tried.turn(2), refusal);
        assert_eq!(tried.draw(), refusal);
        assert_eq!(tried, start);
    }
}

#[test]
fn refusal_5_for_every_wrong_length() {
    for mode in MODES {
        for length in [0, 1, 6_399, 6_401] {
            let mut start = bench_of(mode);
            start.rom.resize(length, 0);
            let mut tried = start.clone();
            let answer = tried.draw();
            assert_eq!((answer.number, answer.value), (5, 0));
            assert_eq!(tried, start);
        }
    }
}

#[test]
fn refusal_6_for_every_length_but_that_of_the_mode() {
    for mode in MODES {
        for length in [0, 1, 39_999, 40_000, 40_001, 59_999, 60_000, 60_001] {
            let mut start = bench_of(mode);
            start.picture.resize(length, 0x5A);
            let mut tried = start.clone();
            let answer = tried.draw();
            if length == mode.picture() {
                assert_eq!((answer.number, answer.value), (0, 4));
            } else {
                assert_eq!((answer.number, answer.value), (6, 0));
                assert_eq!(tried, start);
            }
        }
    }
}

/// A draw with a picture of the length that goes with TGS, where it names a mode.
fn number_of_draw(mut bench: Bench) -> u8 {
    bench.fit_picture(0x5A);
    bench.draw().number
}

#[test]
fn refusal_7_for_every_tgs() {
    for value in 0..=255u8 {
        let mut tgs = bench(0x30);
        tgs.processor.tgs = value;
        let expected = match value & 0xE0 {
            0x00 | 0xC0 => 0,
            _ => 7,
        };
        assert_eq!(number_of_draw(tgs), expected, "TGS {value:02X}");
    }
}

#[test]
fn refusals_7_and_8_for_every_pat_and_ror_in_both_modes() {
    for mode in MODES {
        for value in 0..=255u8 {
            let mut pat = bench_of(mode);
            pat.processor.pat = value;
            let expected = if value & 0x80 != 0 { 7 } else { 0 };
            assert_eq!(number_of_draw(pat), expected);
            let mut ror = bench_of(mode);
            ror.processor.ror = value;
            let expected = if value & 0x1F < 8 { 8 } else { 0 };
            assert_eq!(number_of_draw(ror), expected);
        }
    }
}

/// Makes what the order of the checks counts from 0 wrong.
fn spoil(bench: &mut Bench, check: usize) {
    match check {
        0 => bench.memory.truncate(16_383),
        1 => bench.rom.truncate(6_399),
        2 => bench.processor.tgs ^= 0x40,
        3 => bench.processor.tgs |= 0x20,
        4 => bench.processor.pat |= 0x80,
        5 => bench.picture.truncate(39_999),
        _ => bench.processor.ror = 0x67,
    }
}

#[test]
fn the_order_of_the_checks_of_a_draw() {
    // 6 stands after 7 and before 8.
    let numbers = [1, 5, 7, 7, 7, 6, 8];
    for mode in MODES {
        for wrong in 0..128usize {
            let is_wrong = |check: &usize| wrong >> check & 1 == 1;
            let mut start = bench_of(mode);
            for check in (0..7).filter(is_wrong) {
                spoil(&mut start, check);
            }
            let mut tried = start.clone();
            let answer = tried.draw();
            match (0..7).find(is_wrong) {
                Some(first) => {
                    let number = numbers[first];
                    assert_eq!(answer, Answer { number, value: 0 });
                    assert_eq!(tried, start);
                }
                None => assert_eq!((answer.number, answer.value), (0, 4)),
            }
        }
    }
}

#[test]
fn refusal_9_for_every_other_phase() {
    for phase in 0..=255u8 {
        let mut tried = bench(0x30);
        let answer = tried.turn(phase);
        assert_eq!(answer.value, 0);
        if phase < 2 {
            assert_eq!(answer.number, 0);
            assert_eq!(tried.processor.phase, phase);
        } else {
            assert_eq!(answer.number, 9);
            assert_eq!(tried, bench(0x30));
        }
    }
}

#[test]
fn a_draw_with_no_mark_is_checked_all_the_same() {
    let mut start = bench(0x30);
    start.processor.marks = [false; 25];
    let mut tried = start.clone();
    let answer = tried.draw();
    assert_eq!((answer.number, answer.value), (0, 0));
    assert_eq!(tried, start);
    tried.rom.clear();
    assert_eq!(tried.draw().number, 5);
}
