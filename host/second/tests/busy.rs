//! While a move runs (request T-05): refusal 10, its place among the checks, what is not refused, and that
//! nothing else is changed.

use second::bench::Bench;
use second::pointer::Pointer;
use second::processor::Answer;
use second::{Board, Mode};

/// A bench whose page was drawn and on which a move runs.
fn running(command: u8) -> Bench {
    let mut bench = Bench::drawable();
    for (at, byte) in bench.memory.iter_mut().enumerate() {
        *byte = (at % 251) as u8;
    }
    bench.draw();
    for (address, value) in [(0x21, 0x11), (0x22, 0x22), (0x23, 0x33)] {
        bench.write(address, value);
    }
    bench.point(Pointer { x: 0, y: 9, z: 0 }, Pointer { x: 1, y: 10, z: 0 });
    assert_eq!(bench.write(0x28, command).number, 0);
    bench.step();
    assert!(bench.processor.busy);
    bench
}

const COMMANDS: [u8; 12] = [
    0xD5, 0xD6, 0xD9, 0xDA, 0xE5, 0xE6, 0xE9, 0xEA, 0xF5, 0xF6, 0xF9, 0xFA,
];

fn refusal(number: u8) -> Answer {
    Answer { number, value: 0 }
}

#[test]
fn every_read_but_the_status_at_20_is_refused() {
    for command in COMMANDS {
        let start = running(command);
        for address in 0x20..=0x2F {
            let mut tried = start.clone();
            let answer = tried.read(address);
            let expected = if address == 0x20 {
                Answer {
                    number: 0,
                    value: 0x80,
                }
            } else {
                refusal(10)
            };
            assert_eq!(answer, expected, "read of {address:02X}");
            assert_eq!(tried, start);
        }
    }
}

#[test]
fn every_write_but_a_nop_at_28_is_refused() {
    for command in [0xD5, 0xEA, 0xF6] {
        let start = running(command);
        for address in 0x20..=0x2F {
            for value in 0..=255u8 {
                let mut tried = start.clone();
                let answer = tried.write(address, value);
                if address == 0x28 && [0x90, 0x91].contains(&value) {
                    assert_eq!(answer, refusal(0));
                    let mut expected = start.clone();
                    expected.processor.registers[0] = value;
                    expected.processor.busy = false;
                    assert_eq!(tried, expected);
                } else {
                    assert_eq!(answer, refusal(10), "{value:02X} to {address:02X}");
                    assert_eq!(tried, start);
                }
            }
        }
    }
}

#[test]
fn a_nop_at_28_is_accepted_while_any_of_the_twelve_runs() {
    for command in COMMANDS {
        let mut bench = running(command);
        assert_eq!(bench.write(0x28, 0x90), refusal(0));
        assert_eq!(bench.read(0x20).value, 0x00);
        // From here on everything is as before the move.
        assert_eq!(bench.write(0x21, 0x44), refusal(0));
        assert_eq!(bench.read(0x21).value, 0x44);
    }
}

/// 1, 2, 10, and only then what the command would get. Busy with a command that would get
/// 3, 4 or 11 is a state that no run reaches.
#[test]
fn an_access_is_checked_1_2_10_3_4_11() {
    for wrong in 0..64usize {
        let is_wrong = |check: usize| wrong >> check & 1 == 1;
        let mut bench = Bench::power_up_board(Board::TWO);
        let z = if is_wrong(5) { 2 } else { 1 };
        let x = if is_wrong(4) { 40 } else { 7 };
        bench.point(Pointer { x, y: 8, z }, Pointer { x: 7, y: 8, z: 0 });
        bench.write(0x20, if is_wrong(3) { 0xD4 } else { 0xD5 });
        bench.processor.busy = is_wrong(2);
        if is_wrong(0) {
            bench.memory = vec![0; 16_384];
        }
        let address = if is_wrong(1) { 0x3A } else { 0x2A };
        let first = (0..6).find(|check| is_wrong(*check));
        let expected = first.map_or(0, |check| [1, 2, 10, 3, 4, 11][check]);
        for (answer, after) in [
            {
                let mut tried = bench.clone();
                (tried.write(address, 0x55), tried)
            },
            {
                let mut tried = bench.clone();
                (tried.read(address), tried)
            },
        ] {
            assert_eq!(answer.number, expected);
            if [1, 2, 10].contains(&expected) {
                assert_eq!(answer.value, 0);
                assert_eq!(after, bench, "nothing has changed");
            }
        }
    }
}

/// 1 and 2 come before what is not refused, too.
#[test]
fn the_status_and_a_nop_are_checked_1_and_2() {
    let start = running(0xDA);
    let mut tried = start.clone();
    assert_eq!(tried.read(0x30), refusal(2));
    assert_eq!(tried.write(0x38, 0x90), refusal(2));
    assert_eq!(tried, start);
    tried.memory.push(0);
    let start = tried.clone();
    assert_eq!(tried.read(0x20), refusal(1));
    assert_eq!(tried.write(0x28, 0x90), refusal(1));
    assert_eq!(tried, start);
}

#[test]
fn a_phase_change_and_a_draw_are_not_refused() {
    for (command, mode) in [
        (0xF5, Mode::Forty),
        (0xEA, Mode::Forty),
        (0xD6, Mode::Eighty),
    ] {
        let mut bench = Bench::drawable();
        bench.indirect(1, mode.tgs());
        bench.fit_picture(0xEE);
        for (at, byte) in bench.memory.iter_mut().enumerate() {
            *byte = (at % 251) as u8;
        }
        bench.draw();
        bench.point(Pointer { x: 0, y: 9, z: 0 }, Pointer { x: 1, y: 10, z: 0 });
        bench.write(0x28, command);
        for step in 0..20u8 {
            bench.step();
            assert_eq!(bench.turn(step % 2), refusal(0));
            assert_eq!(bench.processor.phase, step % 2);
            assert_eq!(bench.turn(2), refusal(9));
            assert_eq!(bench.draw().number, 0);
            let fresh = bench.processor.fresh(&bench.memory, &bench.rom);
            assert!(bench.picture == fresh);
            assert!(bench.processor.busy);
        }
    }
}

/// A power-up runs nothing.
#[test]
fn power_up_ends_a_move() {
    let mut bench = running(0xFA);
    let up = second::Operation::PowerUp {
        part: 0,
        blocks: 16,
    };
    bench.apply_with(&second::rules::PageRules, up);
    assert_eq!(bench.processor, second::Processor::power_up());
}
