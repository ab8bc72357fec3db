//! Processors of any 64 bytes: each operation has one answer and one outcome, and it is the second
//! program's from the state that the bytes tell.

use binturamis::{Processor, State, PROCESSOR_BYTES};
use compare::amount::at_least;
use compare::asked::Asked;
use compare::desk::Desk;
use compare::lengths::Lengths;
use compare::pair::Pair;
use compare::report::Report;
use compare::unplanned::unplanned;
use second::random::Random;
use second::sequence::MOVES;
use second::{Board, Mode, Operation, Part};

/// Where TGS and the board stand among the bytes of a processor, and the command and the pointers.
const TGS: usize = 9;
const BOARD: usize = 44;
const COMMAND: usize = 0;
const POINTERS: [[usize; 2]; 2] = [[4, 5], [6, 7]];
/// The numbers by which calls name the boards there: of 16 blocks, 2 and 8, and of the TS9347.
const BOARDS: [u8; 4] = [0, 2, 8, 4];
/// What calls add to them while a move runs. Any of the high four bits says so too.
const BUSY: u8 = 16;

/// Any bytes; small ones, so that many pages can be drawn; or power-up's, but for a few. Every second
/// one has the bits of 80 columns, and two of three the byte of one of the boards.
fn any_bytes(random: &mut Random) -> [u8; PROCESSOR_BYTES] {
    let mut bytes = *Processor::power_up().bytes();
    match random.below(3) {
        0 => bytes.fill_with(|| random.byte()),
        1 => bytes.fill_with(|| random.byte() % 0x20),
        _ => {
            for _ in 0..1 + random.below(8) {
                bytes[random.below(PROCESSOR_BYTES)] = random.byte();
            }
        }
    }
    if random.one_in(2) {
        bytes[TGS] |= Mode::Eighty.tgs();
    }
    if !random.one_in(3) {
        bytes[BOARD] = random.choice(&BOARDS);
    }
    match random.below(4) {
        0 => any_busy(random, &mut bytes),
        1 => any_move(random, &mut bytes),
        _ => {}
    }
    bytes
}

/// Busy, by any of the high four bits, with whatever command and pointers there are.
fn any_busy(random: &mut Random, bytes: &mut [u8; PROCESSOR_BYTES]) {
    let other = random.byte() & 0xF0;
    bytes[BOARD] |= random.choice(&[BUSY, other]);
}

/// Busy with a move, whose pointers are legal for the most part.
fn any_move(random: &mut Random, bytes: &mut [u8; PROCESSOR_BYTES]) {
    any_busy(random, bytes);
    bytes[COMMAND] = random.choice(&MOVES);
    for [down, across] in POINTERS {
        let kept = random.choice(&[0xFF, 0xFF, 0x00]);
        let (high, low) = (random.byte() & kept & 0xE0, random.byte() & kept & 0xC0);
        let (y, x, any) = (random.byte() % 24, random.byte() % 40, random.byte() % 0x20);
        bytes[down] = high + random.choice(&[8 + y, 8 + y, 8 + y, 31, 0, any]);
        bytes[across] = low + random.choice(&[x, x, x, 39, 38, 63 - any / 2]);
    }
}

/// The library with such a processor, and buffers of any bytes.
fn any_desk(random: &mut Random) -> Desk<Processor> {
    let (memory, rom) = (Lengths::WHOLE.memory, Lengths::WHOLE.rom);
    let mut desk: Desk<Processor> = Desk::begin(random.bytes(memory), random.bytes(rom));
    desk.processor = Processor::of_bytes(any_bytes(random));
    desk.picture = random.bytes(Lengths::WHOLE.picture);
    desk
}

/// The second program with the state that a processor tells, and the same buffers.
fn second_desk(desk: &Desk<Processor>) -> Desk<second::Processor> {
    Desk {
        processor: second_processor(desk.processor.state()),
        memory: desk.memory.clone(),
        rom: desk.rom.clone(),
        picture: desk.picture.clone(),
    }
}

fn second_processor(state: State) -> second::Processor {
    second::Processor {
        registers: [
            state.command,
            state.r1,
            state.r2,
            state.r3,
            state.r4,
            state.r5,
            state.r6,
            state.r7,
        ],
        tgs: state.tgs,
        mat: state.mat,
        pat: state.pat,
        dor: state.dor,
        ror: state.ror,
        lx_main: state.status & 0x20 != 0,
        lx_auxiliary: state.status & 0x10 != 0,
        busy: state.status & 0x80 != 0,
        phase: state.phase,
        marks: state.marks,
        board: Board {
            part: Part::numbered(state.part).expect("there are two parts"),
            blocks: usize::from(state.blocks),
        },
    }
}

/// Some steps, lent memory of any length or of the right one, and then a few operations of any kind, a draw
/// into a picture of any length, and draws in both phases.
fn any_operations(random: &mut Random, board: Board) -> Vec<Asked> {
    let mut operations = Vec::new();
    for _ in 0..random.below(4) {
        operations.push(match random.below(4) {
            0 => Asked::with(Operation::Step, Lengths::any(random, board)),
            _ => Asked::right(Operation::Step),
        });
    }
    operations.extend(unplanned(random, board));
    let lengths = Lengths::any_picture(random, board);
    operations.push(Asked::with(Operation::Draw, lengths));
    let phase = random.byte() % 2;
    let phases = [phase, 1 - phase].map(|phase| Operation::Turn { phase });
    let draws = [
        Operation::Draw,
        phases[0],
        Operation::Draw,
        phases[1],
        Operation::Draw,
    ];
    operations.extend(draws.map(Asked::right));
    operations
}

/// How often each number was answered, and what the bytes told that no run from power-up leaves.
#[derive(Debug, Default)]
struct Met {
    numbers: [usize; 15],
    phases_above_1: usize,
    both_lx: usize,
    /// Of 40 columns and of 80: rows redrawn in all, and those in such a phase.
    rows: [usize; 2],
    rows_above_1: [usize; 2],
    /// Refusals that left alone bytes which no call leaves.
    left_alone: usize,
    /// Processors of each board by its own number; of 16 blocks by a number that no call leaves.
    boards: [usize; 4],
    no_board: usize,
    /// Busy ones by 16 alone, as calls leave it, and by other bits.
    busy: [usize; 2],
    /// Steps of a busy processor that moved a position, and that ended what could not run; steps of an idle
    /// one; and steps that were refused by 1, idle and busy.
    moved: usize,
    not_run: usize,
    idle: usize,
    refused_steps: [usize; 2],
}

impl Met {
    /// By the low four bits: 0 stands for 16 blocks, and so does a number that names none of the boards.
    fn look_at_board(&mut self, byte: u8, board: Board) {
        let number = match byte % 16 {
            2 => 0,
            8 => 1,
            4 => 3,
            _ => 2,
        };
        assert_eq!(board, Board::ALL[number], "the board of byte {byte}");
        self.boards[number] += 1;
        self.no_board += usize::from(!BOARDS.contains(&(byte % 16)));
    }

    /// By the high four bits: any of them says that a move runs.
    fn look_at_busy(&mut self, byte: u8, busy: bool) {
        assert_eq!(busy, byte >= BUSY, "busy of byte {byte}");
        match byte / BUSY {
            0 => {}
            1 => self.busy[0] += 1,
            _ => self.busy[1] += 1,
        }
    }

    /// A step, with the second program's processor before it.
    fn look_at_step(&mut self, before: &second::Processor, report: &Report) {
        let is_moved = before.registers[4..] != report.registers[4..];
        match (report.number, before.busy, is_moved) {
            (1, busy, _) => self.refused_steps[usize::from(busy)] += 1,
            (_, true, true) => self.moved += 1,
            (_, true, false) => self.not_run += 1,
            (_, false, _) => self.idle += 1,
        }
    }

    fn look(&mut self, asked: Asked, before: &second::Processor, report: &Report) {
        if asked.operation == Operation::Step {
            self.look_at_step(before, report);
        }
        self.numbers[usize::from(report.number)] += 1;
        self.phases_above_1 += usize::from(report.phase > 1);
        self.both_lx += usize::from(report.lxm + report.lxa == 2);
        if asked.operation == Operation::Draw {
            let rows = usize::from(report.value);
            let is_eighty = report.part == 0 && report.indirect[1] >= Mode::Eighty.tgs();
            let width = usize::from(is_eighty);
            self.rows[width] += rows;
            self.rows_above_1[width] += rows * usize::from(report.phase > 1);
        }
    }
}

/// The operation once more, with everything as it was before: the answer, the 64 bytes and the
/// buffers are the same.
fn assert_once_more(
    told: &str,
    before: &mut Desk<Processor>,
    asked: Asked,
    report: &Report,
    after: &Desk<Processor>,
) {
    assert_eq!(before.apply(asked), *report, "{told}: another answer");
    assert!(before.processor == after.processor, "{told}: other bytes");
    assert!(before.memory == after.memory, "{told}: another memory");
    assert!(before.picture == after.picture, "{told}: another picture");
}

/// "After the others nothing has changed": with refusals 1, 2 and 5 to 10, and with 3, 4 and 11 of a
/// read, which changes no register by itself.
fn leaves_alone(asked: Asked, number: u8) -> bool {
    match asked.operation {
        Operation::Write { .. } => [1, 2, 10].contains(&number),
        Operation::PowerUp { .. } => false,
        _ => number != 0,
    }
}

/// The 64 bytes after an operation: those from before, if nothing has changed, and else those of the
/// state after it. Whether bytes were left alone that no call leaves.
fn look_at_bytes(
    told: &str,
    asked: Asked,
    report: &Report,
    before: &Processor,
    after: &Processor,
) -> bool {
    let mut packed = report.packed();
    let is_power_up = matches!(asked.operation, Operation::PowerUp { .. });
    // The three indirect registers that no command names stay.
    for r in [0, 5, 6].into_iter().filter(|_| !is_power_up) {
        packed[8 + r] = before.bytes()[8 + r];
    }
    if leaves_alone(asked, report.number) {
        assert_eq!(after.bytes(), before.bytes(), "{told}: bytes written");
        return packed != *before.bytes();
    }
    assert_eq!(*after.bytes(), packed, "{told}: the bytes");
    false
}

/// A few operations one after the other, from any bytes.
fn compare_one(seed: u64, met: &mut Met) {
    let mut random = Random::new(seed);
    let library = any_desk(&mut random);
    let second = second_desk(&library);
    let board = second.processor.board;
    let byte = library.processor.bytes()[BOARD];
    met.look_at_board(byte, board);
    met.look_at_busy(byte, second.processor.busy);
    let mut pair = Pair::of(seed, library, second);
    for asked in any_operations(&mut random, board) {
        let mut before = pair.library.clone();
        let second = pair.second.processor.clone();
        let report = pair.apply(asked);
        let told = format!("seed {seed}, {asked:?}");
        let (was, is) = (&before.processor, &pair.library.processor);
        met.left_alone += usize::from(look_at_bytes(&told, asked, &report, was, is));
        assert_once_more(&told, &mut before, asked, &report, &pair.library);
        met.look(asked, &second, &report);
    }
}

#[test]
fn every_operation_has_one_outcome_and_it_is_the_second_programs() {
    let mut met = Met::default();
    for seed in 0..at_least("BINTURAMIS_BYTES", 2_000) {
        compare_one(seed, &mut met);
    }
    println!("{met:?}");
    let numbers = (0..).zip(met.numbers);
    let numbers = numbers.filter(|(number, _)| *number != 13);
    let rare = numbers.map(|(_, times)| times).min().unwrap_or(0);
    assert!(rare >= 30, "a number that is rare: {met:?}");
    assert!(met.boards.iter().all(|times| *times > 200), "{met:?}");
    assert!(met.no_board > 200, "{met:?}");
    assert!(met.phases_above_1 > 1_000 && met.both_lx > 1_000, "{met:?}");
    let mut rows = met.rows.into_iter().chain(met.rows_above_1);
    assert!(rows.all(|rows| rows > 1_000), "{met:?}");
    assert!(met.left_alone > 1_000, "{met:?}");
    let steps = [met.moved, met.not_run, met.idle];
    assert!(steps.iter().all(|times| *times > 100), "{met:?}");
    let mut rare = met.busy.iter().chain(&met.refused_steps);
    assert!(rare.all(|times| *times > 50), "{met:?}");
}
