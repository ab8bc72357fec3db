//! The move commands (request T-05): what begins one, what a step moves, where the pointers go and when it
//! ends.

mod legal;
mod stepped;

use legal::{legal_pointer, random_bench};
use second::address::place;
use second::bench::Bench;
use second::cell::Cell;
use second::command::{Command, Move};
use second::pointer::{Pointer, Which};
use second::processor::Answer;
use second::random::Random;
use second::{Board, Part};
use stepped::{expected_step, MOVES};

const ACCEPTED: Answer = Answer {
    number: 0,
    value: 0,
};

/// Every byte its own, as far as a byte can be.
fn bench() -> Bench {
    let mut bench = Bench::drawable();
    for (at, byte) in bench.memory.iter_mut().enumerate() {
        *byte = (at % 251) as u8;
    }
    bench.draw();
    bench
}

/// A bench on which a move has begun.
fn begun(command: u8, main: Pointer, auxiliary: Pointer) -> Bench {
    begun_on(&bench(), command, main, auxiliary)
}

fn begun_on(start: &Bench, command: u8, main: Pointer, auxiliary: Pointer) -> Bench {
    let mut bench = start.clone();
    bench.point(main, auxiliary);
    assert_eq!(bench.write(0x28, command), ACCEPTED);
    bench
}

fn at(x: usize, y: usize, z: usize) -> Pointer {
    Pointer { x, y, z }
}

/// X, Y and block of both pointers, the main one first.
fn pointers(bench: &Bench) -> [Pointer; 2] {
    [Which::Main, Which::Auxiliary]
        .map(|which| Pointer::of(Part::Ef9345, &bench.processor.registers, which))
}

#[test]
fn the_twelve_codes() {
    let mut codes = Vec::new();
    for (high, bytes) in [(0xD0, 1), (0xE0, 2), (0xF0, 3)] {
        for (middle, source) in [(0x04, Which::Main), (0x08, Which::Auxiliary)] {
            for (low, stop) in [(0x01, true), (0x02, false)] {
                let run = Move {
                    bytes,
                    source,
                    stop,
                };
                let code = high + middle + low;
                assert_eq!(
                    Command::listed(Part::Ef9345, code),
                    Some(Command::Move(run))
                );
                assert_eq!(Command::listed(Part::Ts9347, code), None);
                codes.push(code);
            }
        }
    }
    assert_eq!(codes, MOVES);
    let others = (0xD0..=0xFF).filter(|code| !codes.contains(code));
    for code in others {
        assert_eq!(Command::listed(Part::Ef9345, code), None, "{code:02X}");
    }
}

#[test]
fn a_move_that_begins_clears_both_lx_bits_and_has_moved_nothing() {
    for command in MOVES {
        let mut before = bench();
        before.point(at(3, 9, 4), at(5, 20, 8));
        before.processor.lx_main = true;
        before.processor.lx_auxiliary = true;
        let mut after = before.clone();
        assert_eq!(after.write(0x28, command), ACCEPTED);
        before.processor.registers[0] = command;
        before.processor.lx_main = false;
        before.processor.lx_auxiliary = false;
        before.processor.busy = true;
        assert_eq!(after, before);
        assert_eq!(after.read(0x20).value, 0x80);
    }
}

#[test]
fn a_read_that_executes_begins_one_and_returns_the_value_from_before() {
    for command in MOVES {
        let mut bench = bench();
        bench.point(at(0, 8, 0), at(0, 9, 0));
        bench.processor.lx_main = true;
        bench.write(0x20, command);
        assert!(!bench.processor.busy);
        let value = 0x60;
        assert_eq!(bench.read(0x28), Answer { number: 0, value });
        assert_eq!(bench.processor.status(), 0x80);
    }
}

#[test]
fn a_refused_move_runs_nothing() {
    for command in MOVES {
        for (main, auxiliary) in [
            (at(40, 8, 0), at(0, 8, 0)),
            (at(0, 8, 0), at(63, 8, 0)),
            (at(0, 1, 0), at(0, 8, 0)),
            (at(0, 8, 0), at(0, 7, 0)),
            (at(40, 1, 0), at(40, 1, 0)),
        ] {
            let mut before = bench();
            before.point(main, auxiliary);
            before.processor.lx_auxiliary = true;
            before.write(0x20, command);
            let mut after = before.clone();
            assert_eq!(after.read(0x2A).number, 4);
            assert_eq!(after, before);
            assert_eq!(after.step(), ACCEPTED);
            assert_eq!(after, before);
        }
    }
}

#[test]
fn a_step_moves_one_position_from_the_source_to_the_destination() {
    for command in MOVES {
        let bytes = usize::from(command >> 4) - 0xC;
        let (main, auxiliary) = (at(3, 9, 4), at(5, 20, 8));
        let mut bench = begun(command, main, auxiliary);
        let mut expected = bench.memory.clone();
        let main_is_source = [0x5, 0x6].contains(&(command % 16));
        let (source, destination) = if main_is_source {
            (main, auxiliary)
        } else {
            (auxiliary, main)
        };
        for byte in 0..bytes {
            expected[place(destination.x, destination.y, destination.z + byte)] =
                expected[place(source.x, source.y, source.z + byte)];
        }
        assert_eq!(bench.step(), ACCEPTED);
        assert_eq!(bench.memory, expected, "{command:02X}");
        let last = expected[place(source.x, source.y, source.z + bytes - 1)];
        assert_eq!(bench.processor.registers[1], last);
        assert_eq!(bench.processor.registers[2..4], [0, 0]);
        assert_eq!(pointers(&bench), [at(4, 9, 4), at(6, 20, 8)]);
        assert_eq!(bench.processor.registers[0], command);
        assert_eq!(bench.read(0x20).value, 0x80);
    }
}

/// "Each counted modulo 4 inside its district", the source's and the destination's by itself.
#[test]
fn blocks_are_counted_inside_their_own_district() {
    let district = |z: usize| match z % 4 {
        2 => [z, z + 1, z - 2],
        3 => [z, z - 3, z - 2],
        _ => [z, z + 1, z + 2],
    };
    let start = bench();
    for source in 0..16 {
        for destination in (0..16).filter(|z| z / 4 != source / 4) {
            let mut bench = begun_on(&start, 0xF5, at(39, 31, source), at(32, 8, destination));
            let mut expected = bench.memory.clone();
            for (from, to) in district(source).into_iter().zip(district(destination)) {
                expected[place(32, 8, to)] = expected[place(39, 31, from)];
            }
            bench.step();
            assert_eq!(bench.memory, expected, "{source} to {destination}");
        }
    }
}

#[test]
fn a_byte_stored_is_seen_by_a_later_read_of_the_same_step() {
    // From a block to the next one of the district, the first byte goes into all three.
    let mut bench = begun(0xF5, at(7, 9, 4), at(7, 9, 5));
    let first = bench.memory[place(7, 9, 4)];
    bench.step();
    for z in 4..8 {
        assert_eq!(bench.memory[place(7, 9, z)], first);
    }
    assert_eq!(bench.processor.registers[1], first);
    // The other way round each byte is read before it is stored over.
    let mut bench = begun(0xF9, at(7, 9, 4), at(7, 9, 5));
    let bytes = [5, 6, 7].map(|z| bench.memory[place(7, 9, z)]);
    bench.step();
    let moved = [4, 5, 6].map(|z| bench.memory[place(7, 9, z)]);
    assert_eq!(moved, bytes);
    // A pointer that is both: nothing changes, and R1 has the last byte.
    let mut bench = begun(0xE6, at(7, 9, 4), at(7, 9, 4));
    let before = bench.memory.clone();
    bench.step();
    assert_eq!(bench.memory, before);
    assert_eq!(bench.processor.registers[1], before[place(7, 9, 5)]);
}

/// From a column to the next one, a row is filled with its first byte.
#[test]
fn a_byte_stored_is_seen_by_a_later_step() {
    let mut bench = begun(0xD5, at(0, 12, 3), at(1, 12, 3));
    let first = bench.memory[place(0, 12, 3)];
    let mut steps = 0;
    while bench.processor.busy {
        bench.step();
        steps += 1;
    }
    assert_eq!(steps, 39);
    for x in 0..40 {
        assert_eq!(bench.memory[place(x, 12, 3)], first);
    }
}

#[test]
fn a_move_with_a_stop_ends_with_the_step_at_39_and_within_40() {
    let mut start = bench();
    // No list need be asked.
    start.processor.marks = [true; 25];
    for command in MOVES.into_iter().filter(|command| command % 4 == 1) {
        for (main, auxiliary) in (0..40).flat_map(|main| (0..40).map(move |other| (main, other))) {
            let mut bench = begun_on(&start, command, at(main, 31, 6), at(auxiliary, 0, 13));
            let steps = 40 - main.max(auxiliary);
            assert!((1..=40).contains(&steps));
            for step in 1..=steps {
                assert_eq!(bench.step(), ACCEPTED);
                let ended = step == steps;
                assert_eq!(bench.read(0x20).value, if ended { 0 } else { 0x80 });
            }
            // Both Xs have gone on, 39 to 0; the Ys, the blocks and the command have stayed.
            let x = |x: usize| (x + steps) % 40;
            assert_eq!(
                pointers(&bench),
                [at(x(main), 31, 6), at(x(auxiliary), 0, 13)]
            );
            assert_eq!(bench.processor.registers[0], command);
            let ended = bench.clone();
            assert_eq!(bench.step(), ACCEPTED);
            assert_eq!(bench, ended, "nothing runs");
        }
    }
}

#[test]
fn a_move_without_a_stop_runs_until_a_nop() {
    let mut start = bench();
    start.processor.marks = [true; 25];
    for command in MOVES.into_iter().filter(|command| command % 4 == 2) {
        for nop in [0x90, 0x91] {
            let mut bench = begun_on(&start, command, at(0, 8, 6), at(17, 20, 12));
            for step in 1..=1_500 {
                assert_eq!(bench.step(), ACCEPTED);
                // 24 rows of 40 columns, and again.
                let main = at(step % 40, 8 + step / 40 % 24, 6);
                let auxiliary = at((17 + step) % 40, 20, 12);
                assert_eq!(pointers(&bench), [main, auxiliary]);
                assert_eq!(bench.processor.status(), 0x80);
            }
            let before = bench.clone();
            assert_eq!(bench.write(0x28, nop), ACCEPTED);
            let mut expected = before.clone();
            expected.processor.registers[0] = nop;
            expected.processor.busy = false;
            assert_eq!(bench, expected);
            assert_eq!(bench.step(), ACCEPTED);
            assert_eq!(bench, expected);
        }
    }
}

/// Also where the main pointer is the source, and whatever its block and the auxiliary pointer's are.
#[test]
fn y_goes_from_31_to_8_and_y_0_stays() {
    let start = bench();
    for command in MOVES.into_iter().filter(|command| command % 4 == 2) {
        for y in [0].into_iter().chain(8..32) {
            for other in [0, 8, 31] {
                let next = match y {
                    0 => 0,
                    31 => 8,
                    _ => y + 1,
                };
                let mut bench = begun_on(&start, command, at(39, y, 13), at(39, other, 10));
                bench.step();
                assert_eq!(pointers(&bench), [at(0, next, 13), at(0, other, 10)]);
                // The auxiliary pointer's X passes 39 alone: its Y stays, and so does the main one's.
                let mut bench = begun_on(&start, command, at(12, y, 13), at(39, other, 10));
                bench.step();
                assert_eq!(pointers(&bench), [at(13, y, 13), at(0, other, 10)]);
                assert_eq!(bench.processor.status(), 0x80, "no LX bit");
            }
        }
    }
}

/// "The next access at an upper address runs it again."
#[test]
fn the_finished_moves_byte_stays() {
    let mut bench = begun(0xD5, at(38, 9, 0), at(39, 10, 0));
    bench.step();
    assert!(!bench.processor.busy);
    assert_eq!(pointers(&bench), [at(39, 9, 0), at(0, 10, 0)]);
    assert_eq!(bench.write(0x2A, 0x77), ACCEPTED);
    assert!(bench.processor.busy);
    bench.step();
    assert!(!bench.processor.busy);
    assert_eq!(pointers(&bench), [at(0, 9, 0), at(1, 10, 0)]);
    // An access at a lower one runs nothing.
    bench.write(0x22, 0x78);
    assert!(!bench.processor.busy);
    // Where X was made illegal in between it is refused, as any command is.
    assert_eq!(bench.write(0x2F, 40).number, 4);
    assert!(!bench.processor.busy);
}

#[test]
fn a_wrong_length_of_memory_is_refused_also_while_nothing_runs() {
    let refusal = Answer {
        number: 1,
        value: 0,
    };
    for busy in [false, true] {
        for length in [0, 1, 2_048, 16_383, 16_385, 32_768] {
            let mut start = begun(0xDA, at(0, 8, 0), at(0, 9, 0));
            start.processor.busy = busy;
            start.memory.resize(length, 0x77);
            let mut tried = start.clone();
            assert_eq!(tried.step(), refusal);
            assert_eq!(tried, start);
        }
    }
}

#[test]
fn a_step_while_nothing_runs_changes_nothing() {
    for board in Board::ALL {
        for command in 0..=255 {
            let mut bench = Bench::power_up_board(board);
            bench.write(0x20, command);
            bench.processor.lx_main = true;
            let before = bench.clone();
            assert_eq!(bench.step(), ACCEPTED);
            assert_eq!(bench, before);
        }
    }
}

/// "A step moves nothing, clears busy and answers 0."
#[test]
fn states_that_no_run_reaches_end_with_a_step() {
    let ends = |mut bench: Bench| {
        bench.processor.busy = true;
        bench.processor.lx_auxiliary = true;
        let mut expected = bench.clone();
        expected.processor.busy = false;
        assert_eq!(bench.step(), ACCEPTED);
        assert_eq!(bench, expected);
    };
    for command in (0..=255).filter(|command| !MOVES.contains(command)) {
        let mut bench = bench();
        bench.write(0x20, command);
        ends(bench);
    }
    for command in MOVES {
        for (main, auxiliary) in [
            (at(40, 8, 0), at(0, 8, 0)),
            (at(0, 8, 0), at(0, 7, 0)),
            (at(0, 2, 0), at(63, 9, 0)),
        ] {
            let mut bench = bench();
            bench.point(main, auxiliary);
            bench.write(0x20, command);
            ends(bench);
        }
        // Blocks that the board has not, of the one and of the other pointer.
        for (main, auxiliary) in [(at(0, 8, 8), at(0, 9, 0)), (at(0, 8, 0), at(0, 9, 15))] {
            let mut bench = Bench::power_up_board(Board::EIGHT);
            bench.point(main, auxiliary);
            bench.write(0x20, command);
            ends(bench);
        }
        let mut bench = Bench::power_up_board(Board::TS9347);
        bench.point(at(0, 8, 0), at(0, 9, 0));
        bench.write(0x20, command);
        ends(bench);
    }
    // The second block alone is not fitted.
    let mut bench = Bench::power_up_board(Board::TWO);
    bench.point(at(0, 8, 0), at(0, 9, 1));
    bench.write(0x20, 0xE5);
    ends(bench);
}

#[test]
fn the_ts9347_has_none() {
    for command in MOVES {
        let mut bench = Bench::drawable_board(Board::TS9347);
        bench.point(at(0, 8, 0), at(0, 9, 0));
        assert_eq!(bench.write(0x28, command).number, 3);
        let before = bench.clone();
        assert_eq!(bench.step(), ACCEPTED);
        assert_eq!(bench, before);
    }
}

/// What any legal move leaves after any number of steps, on the board of 16 blocks.
#[test]
fn steps_leave_what_the_bits_of_the_registers_say() {
    let mut random = Random::new(60);
    for trial in 0..1_500 {
        let mut bench = random_bench(&mut random);
        let (main, auxiliary) = (legal_pointer(&mut random), legal_pointer(&mut random));
        // Every third time they meet in a district.
        let auxiliary = match trial % 3 {
            0 => Pointer {
                z: main.z / 4 * 4 + random.below(4),
                ..main
            },
            _ => auxiliary,
        };
        bench.point(main, auxiliary);
        bench.write(0x28, random.choice(&MOVES));
        for _ in 0..random.below(60) {
            let expected = expected_step(&bench);
            bench.step();
            // Before the first draw every row is marked.
            assert_eq!(bench, expected);
        }
    }
}

/// A row scrolls onto the one above it: that row is marked, and the picture shows it.
#[test]
fn each_stored_byte_marks_rows_by_the_usual_list() {
    let mut bench = Bench::drawable();
    bench.rom.fill(0x0F);
    let cell = Cell {
        part: Part::Ef9345,
        c: 0x41,
        b: 0x00,
        a: 0x21,
    };
    for x in 0..40 {
        bench.store_cell(at(x, 10, 0), cell);
    }
    bench.draw();
    bench.point(at(0, 10, 0), at(0, 9, 0));
    bench.write(0x28, 0xF5);
    assert_eq!(bench.processor.marks, [false; 25]);
    while bench.processor.busy {
        bench.step();
    }
    // Origin 8: Y 9 is row 2.
    let mut marks = [false; 25];
    marks[2] = true;
    assert_eq!(bench.processor.marks, marks);
    assert_eq!(bench.draw().value, 1);
    for x in 0..40 {
        assert_eq!(bench.pixels(2, x, 0), bench.pixels(3, x, 0));
    }
    // Once more: no byte changes, and no row is marked.
    bench.point(at(0, 10, 0), at(0, 9, 0));
    bench.write(0x28, 0xF5);
    while bench.processor.busy {
        bench.step();
    }
    assert_eq!(bench.processor.marks, [false; 25]);
}

#[test]
fn a_step_into_a_slice_marks_the_rows_that_show_it() {
    let mut bench = Bench::drawable();
    bench.indirect(4, 0x05);
    let cell = Cell {
        part: Part::Ef9345,
        c: 0x4B,
        b: 0x80,
        a: 0x70,
    };
    for (x, y) in [(4, 9), (9, 20)] {
        bench.store_cell(at(x, y, 0), cell);
    }
    // Slice 0 of 4B is at Y 18 and X 3 of block 5; the byte comes from block 12.
    bench.memory[place(0, 31, 12)] = 0x52;
    bench.draw();
    bench.point(at(3, 18, 5), at(0, 31, 12));
    bench.write(0x28, 0xDA);
    bench.step();
    let mut marks = [false; 25];
    (marks[2], marks[13]) = (true, true);
    assert_eq!(bench.processor.marks, marks);
    // The next byte is on no list.
    bench.memory[place(1, 31, 12)] = 0x53;
    bench.step();
    assert_eq!(bench.memory[place(4, 18, 5)], 0x53);
    assert_eq!(bench.processor.marks, marks);
    bench.draw();
    assert_eq!(bench.pixels(2, 4, 0), [0, 7, 0, 0, 7, 0, 7, 0]);
}

/// "While a draw would get 7 or 8, a store [..] marks nothing".
#[test]
fn a_step_marks_nothing_while_no_page_is_drawn() {
    for (tgs, ror) in [(0x20, 0x08), (0x00, 0x07)] {
        let mut bench = begun(0xF5, at(0, 10, 0), at(0, 9, 0));
        (bench.processor.tgs, bench.processor.ror) = (tgs, ror);
        let before = bench.memory.clone();
        bench.step();
        assert_ne!(bench.memory, before);
        assert_eq!(bench.processor.marks, [false; 25]);
    }
}
