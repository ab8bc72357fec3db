//! Moves of all twelve codes at pointers of every kind, stepped to their end and beyond a row, in both modes
//! and on each board that has them: the library answers and leaves what the second program does.

use compare::asked::Asked;
use compare::lengths::Lengths;
use compare::pair::Pair;
use compare::position::Position;
use second::pointer::Pointer;
use second::random::Random;
use second::sequence::MOVES;
use second::{Board, Mode, Operation, Part};

/// Of the main pointer and of the auxiliary one: equal, beside each other, and at both ends of a row.
const XS: [(usize, usize); 8] = [
    (0, 0),
    (0, 1),
    (2, 0),
    (38, 39),
    (39, 37),
    (39, 39),
    (31, 33),
    (36, 20),
];
/// The service row, the last row and others. They go round with the Xs.
const YS: [(usize, usize); 5] = [(0, 0), (31, 31), (20, 20), (31, 0), (8, 9)];
/// Equal blocks, blocks of one district, and of two.
const ZS: [(usize, usize); 12] = [
    (0, 0),
    (0, 1),
    (1, 0),
    (1, 1),
    (2, 3),
    (3, 1),
    (2, 6),
    (7, 5),
    (0, 8),
    (11, 15),
    (14, 14),
    (13, 2),
];
/// Where one of them is illegal, or both.
const ILLEGAL: [[(usize, usize); 2]; 4] = [
    [(40, 8), (0, 8)],
    [(0, 8), (0, 7)],
    [(0, 1), (39, 31)],
    [(63, 8), (40, 0)],
];

fn pair(board: Board, mode: Mode) -> Pair {
    let mut random = Random::new(board.blocks as u64);
    let memory = random.bytes(Lengths::WHOLE.memory);
    let rom = random.bytes(Lengths::WHOLE.rom);
    let mut pair = Pair::begin_board(5, board, memory, rom);
    // The page at 0 with origin 31.
    for (address, value) in [(0x21, mode.tgs()), (0x28, 0x81), (0x21, 0x1F), (0x28, 0x87)] {
        write(&mut pair, address, value);
    }
    draw(&mut pair);
    pair
}

fn write(pair: &mut Pair, address: u8, value: u8) -> u8 {
    let operation = Operation::Write { address, value };
    pair.apply(Asked::right(operation)).number
}

fn read(pair: &mut Pair, address: u8) -> u8 {
    pair.apply(Asked::right(Operation::Read { address })).number
}

fn draw(pair: &mut Pair) {
    let drawn = pair.apply(Asked::right(Operation::Draw));
    assert_eq!(drawn.number, 0);
}

/// Both pointers, and the move: the number that it gets.
fn begin(pair: &mut Pair, command: u8, main: Pointer, auxiliary: Pointer) -> u8 {
    let (r6, r7) = main.main_registers(Part::Ef9345);
    let (r4, r5, z3) = auxiliary.auxiliary_registers(Part::Ef9345);
    let z3 = if z3 == Some(true) { 0x40 } else { 0 };
    for (address, value) in [(0x24, r4), (0x25, r5), (0x26, r6 + z3), (0x27, r7)] {
        assert_eq!(write(pair, address, value), 0);
    }
    write(pair, 0x28, command)
}

/// What the moves of a board met.
#[derive(Debug, Default, PartialEq, Eq)]
struct Met {
    begun: usize,
    /// Refused by 4, and by 11.
    refused: [usize; 2],
    /// Positions moved, and those of them that saw a byte of their own, or went round a district.
    steps: usize,
    seeing: usize,
    round: usize,
    /// Steps that left a row marked which was not before.
    marking: usize,
    /// Of those without a stop: from Y 31 to 8, and staying at Y 0.
    to_8: usize,
    at_0: usize,
}

impl Met {
    /// One step, which the second program is asked about beforehand.
    fn step(&mut self, pair: &mut Pair) -> bool {
        let before = pair.second.processor.clone();
        let position = Position::next(&before).expect("a move runs");
        self.steps += 1;
        self.seeing += usize::from(position.sees_itself(&pair.second.memory));
        self.round += usize::from(position.wraps().contains(&true));
        let report = pair.apply(Asked::right(Operation::Step));
        assert_eq!((report.number, report.value), (0, 0));
        let mut marks = before.marks.iter().zip(report.marks);
        self.marking += usize::from(marks.any(|(was, is)| !was && is == 1));
        if before.registers[7] % 64 == 39 && !position.run.stop {
            let ys = (before.registers[6] % 32, report.registers[6] % 32);
            self.to_8 += usize::from(ys == (31, 8));
            self.at_0 += usize::from(ys == (0, 0));
        }
        report.busy == 1
    }

    /// A move from its beginning to its end, or past the end of a row and then ended by a NOP. What is asked
    /// for meanwhile is refused by 10 or is not.
    fn run(&mut self, pair: &mut Pair, command: u8, main: Pointer, auxiliary: Pointer) {
        match begin(pair, command, main, auxiliary) {
            0 => self.begun += 1,
            4 => self.refused[0] += 1,
            11 => self.refused[1] += 1,
            number => panic!("{command:02X} got {number}"),
        }
        if pair.second.processor.busy {
            let most = 43 - main.x;
            let has_ended = (0..most).any(|step| {
                if step % 8 == 3 {
                    ask_while_busy(pair, step);
                }
                !self.step(pair)
            });
            assert_eq!(has_ended, command % 4 == 1, "{command:02X}");
        }
        // Nothing runs, or the move goes on by one more.
        pair.apply(Asked::right(Operation::Step));
        let nop = if main.x > 20 { 0x90 } else { 0x91 };
        assert_eq!(write(pair, 0x28, nop), 0);
        pair.apply(Asked::right(Operation::Step));
        draw(pair);
    }
}

fn ask_while_busy(pair: &mut Pair, step: usize) {
    assert_eq!(read(pair, 0x20), 0);
    for address in 0x21..=0x2F {
        assert_eq!(read(pair, address), 10);
        assert_eq!(write(pair, address, 0x89), 10);
    }
    for (address, value) in [(0x20, 0x90), (0x29, 0x91), (0x28, 0xD5), (0x20, 0x00)] {
        assert_eq!(write(pair, address, value), 10);
    }
    let phase = (step / 8 % 2) as u8;
    pair.apply(Asked::right(Operation::Turn { phase }));
    draw(pair);
}

fn compare(board: Board, mode: Mode) -> Met {
    let mut pair = pair(board, mode);
    let mut met = Met::default();
    let mut ys = YS.into_iter().cycle();
    for (main_z, auxiliary_z) in ZS {
        for command in MOVES {
            for (main_x, auxiliary_x) in XS {
                let (main_y, auxiliary_y) = ys.next().expect("they go round");
                let main = Pointer {
                    x: main_x,
                    y: main_y,
                    z: main_z,
                };
                let auxiliary = Pointer {
                    x: auxiliary_x,
                    y: auxiliary_y,
                    z: auxiliary_z,
                };
                met.run(&mut pair, command, main, auxiliary);
            }
            for [main, auxiliary] in ILLEGAL {
                let at = |(x, y), z| Pointer { x, y, z };
                let (main, auxiliary) = (at(main, main_z), at(auxiliary, auxiliary_z));
                met.run(&mut pair, command, main, auxiliary);
            }
        }
    }
    met
}

/// The pairs of blocks in which so many bytes of both pointers are fitted, written out for each board.
fn begun(board: Board) -> usize {
    let pairs = match board.blocks {
        // MVB within 0 and 1, MVD at 0 alone, MVT nowhere.
        2 => [4, 1, 0],
        // The first eight pairs: whole districts.
        8 => [8, 8, 8],
        _ => [12, 12, 12],
    };
    let moves: usize = pairs.into_iter().map(|pairs| 4 * pairs).sum();
    moves * XS.len()
}

#[test]
fn they_are_the_second_programs_at_every_kind_of_pointer() {
    let all = ZS.len() * MOVES.len() * XS.len();
    let illegal = ZS.len() * MOVES.len() * ILLEGAL.len();
    for board in [Board::SIXTEEN, Board::EIGHT, Board::TWO] {
        for mode in [Mode::Forty, Mode::Eighty] {
            let met = compare(board, mode);
            println!("{board:?}, {mode:?}: {met:?}");
            assert_eq!(met.begun, begun(board));
            assert_eq!(met.refused, [illegal, all - met.begun]);
            let is_two = board == Board::TWO;
            for times in [met.seeing, met.round] {
                assert!(if is_two { times == 0 } else { times > 40 }, "{met:?}");
            }
            let least = if is_two { 10 } else { 50 };
            for times in [met.marking, met.to_8, met.at_0] {
                assert!(times > least, "{met:?}");
            }
            assert!(met.steps > 10 * met.begun, "{met:?}");
        }
    }
}

/// A memory of another length is refused by 1, while nothing runs and while a move does, which then goes on
/// as before.
#[test]
fn a_step_with_a_wrong_memory_is_refused_idle_and_busy() {
    for board in Board::ALL {
        let mut pair = pair(board, Mode::Forty);
        let at = |x| Pointer { x, y: 20, z: 0 };
        for busy in [false, true] {
            if busy {
                let number = begin(&mut pair, 0xD6, at(0), at(5));
                let is_later = board.part == Part::Ts9347;
                assert_eq!(number, if is_later { 3 } else { 0 });
            }
            let right = board.memory();
            for memory in [
                0,
                1,
                1_024,
                2_048,
                8_192,
                16_384,
                32_768,
                right - 1,
                right + 1,
            ] {
                let lengths = Lengths {
                    memory,
                    ..Lengths::right(Some(Mode::Forty), board)
                };
                let report = pair.apply(Asked::with(Operation::Step, lengths));
                assert_eq!(report.number, u8::from(memory != right), "{memory} bytes");
            }
            pair.apply(Asked::right(Operation::Step));
        }
    }
}

/// The TS9347 has no move: each code gets 3, nothing runs, and a step changes nothing.
#[test]
fn the_ts9347_refuses_them() {
    let mut pair = pair(Board::TS9347, Mode::Forty);
    for command in MOVES {
        assert_eq!(write(&mut pair, 0x20, command), 0);
        assert_eq!(read(&mut pair, 0x29), 3);
        let before = pair.library.processor.clone();
        let report = pair.apply(Asked::right(Operation::Step));
        assert_eq!((report.number, report.busy), (0, 0));
        assert!(pair.library.processor == before);
    }
}
