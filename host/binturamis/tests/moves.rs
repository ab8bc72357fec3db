//! The moves MVB, MVD and MVT through the registers: their bytes, what a step moves and where it goes on,
//! when a move ends, what is refused while it runs, and what it marks.

use binturamis::{Board, Panel, Processor, Refusal, Stepped, MEMORY_BYTES, ROM_BYTES, ROWS};

/// The commands, by the bytes that they move a step, and what is added to them.
const MOVES: [(u8, usize); 3] = [(0xD0, 1), (0xE0, 2), (0xF0, 3)];
const MVT: u8 = 0xF0;
const FROM_MAIN: u8 = 0x04;
const FROM_AUXILIARY: u8 = 0x08;
const STOP: u8 = 0x01;
const NO_STOP: u8 = 0x02;

const NOP: u8 = 0x91;
const BUSY: u8 = 0x80;
const LXM: u8 = 0x60;

fn panel() -> Panel {
    Panel::new([0; ROM_BYTES])
}

/// X, Y and the block Z.
type Place = (u8, u8, u8);

/// Both pointers: R6 has Z3 of either one.
fn point(panel: &mut Panel, main: Place, auxiliary: Place) -> Result<(), Refusal> {
    let bit = |z: u8, number: u8| z >> number & 1;
    let across = |(x, _, z): Place| bit(z, 0) << 7 | bit(z, 1) << 6 | x;
    let z3 = bit(main.2, 3) << 7 | bit(auxiliary.2, 3) << 6;
    panel.write(0x24, bit(auxiliary.2, 2) << 5 | auxiliary.1)?;
    panel.write(0x25, across(auxiliary))?;
    panel.write(0x26, z3 | bit(main.2, 2) << 5 | main.1)?;
    panel.write(0x27, across(main))
}

/// OCT of a byte, at the main pointer.
fn store(panel: &mut Panel, (x, y, z): Place, value: u8) -> Result<(), Refusal> {
    point(panel, (x, y, z), (0, 0, 0))?;
    panel.write(0x20, 0x30)?;
    panel.write(0x29, value)
}

/// Where the byte at X and Y of a block stands in the memory, with Y 0 or from 8 on.
fn place((x, y, z): Place) -> usize {
    let (x, y, z) = (usize::from(x), usize::from(y), usize::from(z));
    let inside = match (x, y) {
        (..32, _) => 32 * y + x,
        (_, 0) => x,
        _ => 8 * y + x - 32,
    };
    1024 * z + inside
}

/// The same so many blocks further on, inside the district.
fn further((x, y, z): Place, blocks: usize) -> usize {
    place((x, y, z / 4 * 4 + (z % 4 + blocks as u8) % 4))
}

/// The bytes that are not zero, with their places.
fn stored(panel: &Panel) -> Vec<(usize, u8)> {
    let bytes = panel.memory().iter().copied().enumerate();
    bytes.filter(|(_, byte)| *byte != 0).collect()
}

/// A panel on which a move has been started, from the main pointer or from the auxiliary one.
fn started(command: u8, source: Place, destination: Place) -> Result<Panel, Refusal> {
    let mut panel = panel();
    start(&mut panel, command, source, destination)?;
    Ok(panel)
}

fn start(panel: &mut Panel, command: u8, source: Place, destination: Place) -> Result<(), Refusal> {
    match command & FROM_MAIN {
        0 => point(panel, destination, source)?,
        _ => point(panel, source, destination)?,
    }
    panel.write(0x28, command)
}

#[test]
fn twelve_bytes_from_d0_to_ff_are_moves() {
    let mut moves = Vec::new();
    for command in 0xD0..=0xFF {
        let mut panel = panel();
        match panel.write(0x28, command) {
            Ok(()) => moves.push(command),
            Err(refusal) => assert_eq!(refusal, Refusal::NotListed, "{command:02X}"),
        }
        assert_eq!(panel.is_busy(), moves.last() == Some(&command));
    }
    let wanted = [
        0xD5, 0xD6, 0xD9, 0xDA, 0xE5, 0xE6, 0xE9, 0xEA, 0xF5, 0xF6, 0xF9, 0xFA,
    ];
    assert_eq!(moves, wanted);
}

#[test]
fn executing_a_move_clears_both_lx_and_sets_busy_and_moves_nothing() -> Result<(), Refusal> {
    let mut panel = panel();
    store(&mut panel, (39, 8, 0), 0x41)?;
    panel.write(0x28, 0x31)?; // OCT with increment, from X 39
    assert_eq!(panel.state().status, LXM);
    let before = stored(&panel);
    start(&mut panel, MVT + FROM_MAIN + STOP, (39, 8, 0), (0, 9, 0))?;
    assert_eq!(panel.state().status, BUSY);
    assert_eq!(panel.read(0x20), Ok(BUSY));
    assert_eq!(stored(&panel), before);
    Ok(())
}

#[test]
fn a_step_moves_one_two_or_three_bytes_either_way() -> Result<(), Refusal> {
    let (source, destination) = ((5, 9, 12), (33, 31, 4));
    for (command, count) in MOVES {
        for from in [FROM_MAIN, FROM_AUXILIARY] {
            for stop in [STOP, NO_STOP] {
                let mut panel = panel();
                for byte in 0..3 {
                    store(&mut panel, (5, 9, 12 + byte), 0x41 + byte)?;
                }
                start(&mut panel, command + from + stop, source, destination)?;
                panel.step()?;
                for byte in 0..3 {
                    let moved = panel.memory()[further(destination, byte)];
                    let wanted = if byte < count { 0x41 + byte as u8 } else { 0 };
                    assert_eq!(moved, wanted, "{:02X}", command + from + stop);
                }
                assert_eq!(stored(&panel).len(), 3 + count);
                let state = panel.state();
                assert_eq!(state.r1, 0x40 + count as u8, "the last byte moved");
                let [main, auxiliary] = [state.r7, state.r5].map(|across| across % 64);
                let wanted = if from == FROM_MAIN { (6, 34) } else { (34, 6) };
                assert_eq!((main, auxiliary), wanted, "both X go on");
                assert_eq!(state.status, BUSY);
            }
        }
    }
    Ok(())
}

#[test]
fn the_blocks_of_either_place_are_counted_inside_its_district() -> Result<(), Refusal> {
    for (from, to) in [(2, 9), (3, 14), (13, 7), (15, 0), (7, 11)] {
        let mut panel = panel();
        let (source, destination) = ((7, 10, from), (8, 11, to));
        for byte in 0..3 {
            let block = from / 4 * 4 + (from + byte) % 4;
            store(&mut panel, (7, 10, block), 0x51 + byte)?;
        }
        start(&mut panel, MVT + FROM_MAIN + STOP, source, destination)?;
        panel.step()?;
        let moved = [0, 1, 2].map(|byte| panel.memory()[further(destination, byte)]);
        assert_eq!(moved, [0x51, 0x52, 0x53], "{from} to {to}");
        assert_eq!(stored(&panel).len(), 6);
    }
    Ok(())
}

/// To the same place one block further on: each byte moved is the one that the store before it has left.
#[test]
fn a_byte_stored_is_read_by_the_same_step() -> Result<(), Refusal> {
    let mut panel = panel();
    for byte in 0..4 {
        store(&mut panel, (5, 9, byte), 0x41 + byte)?;
    }
    start(&mut panel, MVT + FROM_MAIN + STOP, (5, 9, 0), (5, 9, 1))?;
    panel.step()?;
    let row = [0, 1, 2, 3].map(|z| panel.memory()[place((5, 9, z))]);
    assert_eq!(row, [0x41; 4]);
    Ok(())
}

#[test]
fn a_move_with_a_stop_ends_with_the_row_of_either_pointer() -> Result<(), Refusal> {
    for (command, _) in MOVES {
        for from in [FROM_MAIN, FROM_AUXILIARY] {
            for (source, destination) in [(0, 0), (0, 39), (39, 0), (10, 30), (38, 37)] {
                let mut panel =
                    started(command + from + STOP, (source, 31, 4), (destination, 0, 8))?;
                let registers = (panel.state().r4, panel.state().r6);
                let stepped = panel.finish(100)?;
                let steps = 40 - usize::from(source.max(destination));
                assert_eq!(
                    stepped,
                    Stepped {
                        steps,
                        is_idle: true
                    }
                );
                let state = panel.state();
                assert_eq!((state.r4, state.r6), registers, "both Y stay");
                assert_eq!(state.status, 0, "no LX bit is set");
                let x = |x: u8| (usize::from(x) + steps) % 40;
                let [main, auxiliary] = [state.r7, state.r5].map(|r| usize::from(r % 64));
                let (from_x, to_x) = match from {
                    FROM_MAIN => (main, auxiliary),
                    _ => (auxiliary, main),
                };
                assert_eq!((from_x, to_x), (x(source), x(destination)));
            }
        }
    }
    Ok(())
}

/// The Y of the main pointer after so many rows.
fn after_rows(y: u8, rows: u8) -> u8 {
    match y {
        0 => 0,
        y => 8 + (y - 8 + rows) % 24,
    }
}

#[test]
fn a_move_without_a_stop_goes_on_row_after_row_of_the_main_pointer() -> Result<(), Refusal> {
    for from in [FROM_MAIN, FROM_AUXILIARY] {
        for y in [0, 8, 30, 31] {
            let (main, auxiliary) = ((0, y, 4), (20, 31, 9));
            let mut panel = panel();
            point(&mut panel, main, auxiliary)?;
            panel.write(0x28, MVT + from + NO_STOP)?;
            for rows in 1..=50 {
                let stepped = panel.finish(40)?;
                let wanted = Stepped {
                    steps: 40,
                    is_idle: false,
                };
                assert_eq!(stepped, wanted, "Y {y}, {rows} rows");
                let state = panel.state();
                assert_eq!(state.r6, 0x40 | 0x20 | after_rows(y, rows), "the main Y");
                assert_eq!((state.r7, state.r4, state.r5), (0, 31, 0x80 | 20));
                assert_eq!(state.status, BUSY, "no LX bit is set");
            }
        }
    }
    Ok(())
}

/// One row of text from the auxiliary pointer, and then all 24.
#[test]
fn one_row_is_copied_to_every_other() -> Result<(), Refusal> {
    let mut panel = panel();
    for x in 0..40 {
        store(&mut panel, (x, 8, 0), 0x41 + x)?;
    }
    let command = MVT + FROM_AUXILIARY + NO_STOP;
    start(&mut panel, command, (0, 8, 0), (0, 9, 0))?;
    assert!(!panel.finish(23 * 40)?.is_idle);
    panel.write(0x28, NOP)?;
    for (x, y) in (8..32).flat_map(|y| (0..40).map(move |x| (x, y))) {
        assert_eq!(panel.memory()[place((x, y, 0))], 0x41 + x, "{x}, {y}");
    }
    assert_eq!(stored(&panel).len(), 24 * 40);
    Ok(())
}

#[test]
fn a_nop_ends_any_move() -> Result<(), Refusal> {
    for nop in [0x90, 0x91] {
        for stop in [STOP, NO_STOP] {
            let mut panel = started(MVT + FROM_MAIN + stop, (0, 8, 0), (0, 9, 0))?;
            panel.finish(7)?;
            assert!(panel.is_busy());
            panel.write(0x28, nop)?;
            let state = panel.state();
            assert_eq!((state.status, state.command), (0, nop));
            assert_eq!((state.r5, state.r7), (7, 7), "the pointers stay");
            let after = panel.clone();
            panel.step()?;
            assert_eq!(panel, after, "nothing runs");
        }
    }
    Ok(())
}

/// What is not refused while a move runs.
fn is_free_write(address: u8, value: u8) -> bool {
    address == 0x28 && [0x90, 0x91].contains(&value)
}

#[test]
fn every_other_access_is_refused_by_10_while_a_move_runs() -> Result<(), Refusal> {
    let busy = started(MVT + FROM_MAIN + NO_STOP, (0, 8, 0), (0, 9, 0))?;
    for address in 0..=255 {
        let is_ours = address / 16 == 2;
        let refusal = if is_ours {
            Refusal::Busy
        } else {
            Refusal::WrongAddress
        };
        // Commands that would get 3 or run, and both bytes of NOP.
        for value in [0x00, 0x05, 0x80, 0x90, 0x91, 0xFF] {
            let mut panel = busy.clone();
            let written = panel.write(address, value);
            if is_free_write(address, value) {
                assert_eq!(written, Ok(()), "{address:02X}, {value:02X}");
                assert!(!panel.is_busy());
            } else {
                assert_eq!(written, Err(refusal), "{address:02X}, {value:02X}");
                assert_eq!(panel, busy, "{address:02X}, {value:02X}");
            }
        }
        let mut panel = busy.clone();
        let read = panel.read(address);
        if address == 0x20 {
            assert_eq!(read, Ok(BUSY));
        } else {
            let refused = read.expect_err("it is refused");
            assert_eq!((refused.refusal(), refused.value()), (refusal, None));
        }
        assert_eq!(panel, busy, "{address:02X}");
    }
    Ok(())
}

/// The memory is asked first: with a wrong one nothing else counts.
#[test]
fn a_wrong_memory_is_refused_by_1_before_10() -> Result<(), Refusal> {
    let mut processor = Processor::power_up();
    let mut memory = vec![0; MEMORY_BYTES + 1];
    binturamis::write(&mut processor, &mut memory[1..], 0x28, 0xF5)?;
    let busy = processor.clone();
    for length in [0, 1, MEMORY_BYTES - 1, MEMORY_BYTES + 1] {
        let lent = &mut memory[..length];
        let stepped = binturamis::step(&mut processor, lent);
        assert_eq!(stepped, Err(Refusal::WrongMemory));
        let written = binturamis::write(&mut processor, lent, 0x21, 0);
        assert_eq!(written, Err(Refusal::WrongMemory));
        let read = binturamis::read(&mut processor, lent, 0x21);
        let refused = read.expect_err("it is refused");
        assert_eq!(refused.refusal(), Refusal::WrongMemory);
        assert_eq!(processor, busy);
    }
    Ok(())
}

#[test]
fn a_step_while_nothing_runs_changes_nothing() -> Result<(), Refusal> {
    let mut panel = panel();
    store(&mut panel, (5, 9, 0), 0x41)?;
    panel.write(0x20, MVT + FROM_MAIN + STOP)?; // the command is there, and was not executed
    let before = panel.clone();
    panel.step()?;
    assert_eq!(panel, before);
    let wanted = Stepped {
        steps: 0,
        is_idle: true,
    };
    assert_eq!(panel.finish(1_000)?, wanted);
    assert_eq!(panel, before);
    Ok(())
}

#[test]
fn finish_makes_no_step_more_than_its_limit() -> Result<(), Refusal> {
    let mut panel = started(MVT + FROM_MAIN + STOP, (0, 8, 0), (0, 9, 0))?;
    for (limit, steps, is_idle) in [(0, 0, false), (39, 39, false), (1, 1, true), (1, 0, true)] {
        assert_eq!(panel.finish(limit)?, Stepped { steps, is_idle });
    }
    Ok(())
}

#[test]
fn the_moves_byte_stays_as_the_command_and_runs_again() -> Result<(), Refusal> {
    let command = MVT + FROM_MAIN + STOP;
    let mut panel = started(command, (0, 8, 0), (0, 9, 0))?;
    panel.finish(40)?;
    assert_eq!((panel.state().command, panel.is_busy()), (command, false));
    panel.write(0x24, 11)?;
    panel.write(0x2E, 10)?; // R6, which executes
    assert!(panel.is_busy());
    assert_eq!(panel.finish(40)?.steps, 40);
    Ok(())
}

/// Of a move both pointers count, whichever is the source.
#[test]
fn a_pointer_that_is_not_legal_is_refused_by_4() -> Result<(), Refusal> {
    for (command, _) in MOVES {
        for from in [FROM_MAIN, FROM_AUXILIARY] {
            for (x, y) in [(40, 8), (63, 0), (0, 1), (39, 7)] {
                for (main, auxiliary) in [((x, y, 0), (0, 0, 0)), ((0, 0, 0), (x, y, 0))] {
                    let mut panel = panel();
                    point(&mut panel, main, auxiliary)?;
                    let refused = panel.write(0x28, command + from + STOP);
                    assert_eq!(refused, Err(Refusal::BadPointer), "{main:?} {auxiliary:?}");
                    assert_eq!(panel.state().command, command + from + STOP);
                    assert!(!panel.is_busy());
                }
            }
        }
    }
    Ok(())
}

/// Whether every byte at a pointer with this block is fitted.
fn is_fitted(board: Board, z: u8, count: usize) -> bool {
    (0..count as u8).all(|byte| z / 4 * 4 + (z + byte) % 4 < board.blocks())
}

#[test]
fn a_block_that_is_not_fitted_is_refused_by_11_at_either_pointer() -> Result<(), Refusal> {
    for board in [Board::Two, Board::Eight, Board::Sixteen] {
        for (command, count) in MOVES {
            for (main, auxiliary) in (0..16).flat_map(|z| (0..16).map(move |other| (z, other))) {
                let mut panel = Panel::with_board(board, &[0; ROM_BYTES])?;
                point(&mut panel, (0, 8, main), (0, 9, auxiliary))?;
                let answered = panel.write(0x28, command + FROM_AUXILIARY + NO_STOP);
                let all = is_fitted(board, main, count) && is_fitted(board, auxiliary, count);
                let wanted = if all { Ok(()) } else { Err(Refusal::NotFitted) };
                assert_eq!(answered, wanted, "{board:?}, {main}, {auxiliary}");
                assert_eq!(panel.is_busy(), all);
            }
        }
    }
    Ok(())
}

/// A page at block 0 with its origin at Y 8, on which nothing is marked.
fn drawn() -> Result<Panel, Refusal> {
    let mut rom = [0; ROM_BYTES];
    for (at, slice) in rom.iter_mut().enumerate() {
        *slice = (7 * at % 251) as u8;
    }
    let mut panel = Panel::new(rom);
    panel.write(0x21, 0x08)?;
    panel.write(0x28, 0x87)?; // ROR
    panel.draw()?;
    Ok(panel)
}

fn marked(panel: &Panel) -> Vec<usize> {
    let marks = panel.state().marks;
    (0..ROWS).filter(|row| marks[*row]).collect()
}

/// Row 3 has text and is copied to row 6: only that one is marked, and a draw in the middle of the move shows
/// what has been moved by then.
#[test]
fn a_step_marks_rows_and_a_draw_does_not_wait() -> Result<(), Refusal> {
    let mut panel = drawn()?;
    point(&mut panel, (0, 10, 0), (0, 0, 0))?;
    panel.write(0x23, 0x70)?;
    panel.write(0x20, 0x01)?; // KRF with increment
    for c in 0x41..0x41 + 40 {
        panel.write(0x29, c)?;
    }
    assert!(panel.draw()?.rows().eq([3]));
    start(&mut panel, MVT + FROM_MAIN + STOP, (0, 10, 0), (0, 13, 0))?;
    assert_eq!(marked(&panel), []);
    for _ in 0..20 {
        panel.step()?;
        assert_eq!(marked(&panel), [6]);
    }
    panel.turn(1)?;
    assert!(panel.draw()?.rows().eq([6]));
    let line = |row: usize| panel.row(row)[..80].to_vec();
    assert!(line(3) == line(6) && panel.row(3) != panel.row(6));
    assert_eq!(panel.finish(40)?.steps, 20);
    assert!(panel.draw()?.rows().eq([6]));
    assert!(panel.row(3) == panel.row(6));

    // The same row once more: no byte changes, so no row is marked.
    start(&mut panel, MVT + FROM_MAIN + STOP, (0, 10, 0), (0, 13, 0))?;
    panel.finish(40)?;
    assert_eq!(panel.draw()?.count(), 0);
    Ok(())
}
