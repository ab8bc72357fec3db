//! What the operations met of moves: each of the twelve codes begun, refused and stepped, what the steps
//! moved, how moves ended, and what was asked while one ran.

use std::fmt;

use second::pointer::{Pointer, Which};
use second::sequence::MOVES;
use second::{Board, Operation};

use crate::position::Position;
use crate::trial::Step;

/// What happened to a command when it was executed: it began, or it was refused by this number.
const EXECUTED: [u8; 4] = [0, 3, 4, 11];

/// What a step that moved a position showed.
const STEPS: [&str; 10] = [
    "marking",
    "not marking",
    "of bytes that were there",
    "that saw a byte of their own",
    "that saw a byte of an earlier one",
    "round a source's district",
    "round a destination's district",
    "from Y 31 to 8",
    "that stayed at Y 0",
    "that ended a move",
];

/// What was asked while one ran.
const ASKED: [&str; 9] = [
    "status read at 20",
    "ended by a NOP, with a stop",
    "ended by a NOP, without",
    "drawn",
    "phase changed",
    "status read at 28 refused by 10",
    "NOP at 20 refused by 10",
    "write to R1 to R7 at 21 to 27 refused by 10",
    "step refused by 1",
];

#[derive(Default)]
pub struct Moves {
    /// By the code.
    executed: [[usize; EXECUTED.len()]; MOVES.len()],
    /// Positions moved, by the code.
    stepped: [usize; MOVES.len()],
    steps: [usize; STEPS.len()],
    asked: [usize; ASKED.len()],
    /// Reads and writes refused by 10.
    refused: [usize; 2],
    /// Steps while nothing ran: accepted, and refused by 1.
    idle: [usize; 2],
}

impl Moves {
    pub fn look(&mut self, step: &Step) {
        self.look_at_command(step);
        if let Some(position) = step.position {
            self.look_at_position(step, position);
        }
        if step.before.busy {
            self.look_while_busy(step);
        } else if step.asked.operation == Operation::Step {
            self.idle[usize::from(step.report.number == 1)] += 1;
        }
    }

    /// A move that was executed, by the access that wrote it or by a later one.
    fn look_at_command(&mut self, step: &Step) {
        let (Operation::Write { address, .. } | Operation::Read { address }) = step.asked.operation
        else {
            return;
        };
        let code = code_of(step.report.registers[0]);
        let number = EXECUTED.iter().position(|of| *of == step.report.number);
        if let (Some(code), Some(number), 0x28..=0x2F) = (code, number, address) {
            self.executed[code][number] += 1;
            let is_begun = !step.before.busy && step.report.busy == 1;
            assert_eq!(is_begun, step.report.number == 0, "{:?}", step.asked);
        }
    }

    fn look_at_position(&mut self, step: &Step, position: Position) {
        let code = code_of(step.before.registers[0]);
        self.stepped[code.expect("a move ran")] += 1;
        let mut marks = step.before.marks.iter().zip(step.report.marks);
        let is_marking = marks.any(|(was, is)| !was && is == 1);
        let [source, destination] = position.wraps();
        let (part, registers) = (step.before.board.part, &step.before.registers);
        let main = Pointer::of(part, registers, Which::Main);
        let goes_down = !position.run.stop && main.x == 39;
        let counts = [
            is_marking,
            step.stored && !is_marking,
            !step.stored,
            step.sees_itself,
            step.sees_earlier,
            source,
            destination,
            goes_down && main.y == 31,
            goes_down && main.y == 0,
            step.report.busy == 0,
        ];
        for (count, met) in self.steps.iter_mut().zip(counts) {
            *count += usize::from(met);
        }
    }

    fn look_while_busy(&mut self, step: &Step) {
        let (number, before) = (step.report.number, &step.before);
        let is_write = matches!(step.asked.operation, Operation::Write { .. });
        if number == 10 {
            self.refused[usize::from(is_write)] += 1;
        }
        let has_stop = before.registers[0] % 4 == 1;
        let asked = match (step.asked.operation, number) {
            (Operation::Read { address: 0x20 }, 0) => 0,
            (Operation::Write { address: 0x28, .. }, 0) => 2 - usize::from(has_stop),
            (Operation::Draw, 0) => 3,
            (Operation::Turn { phase }, 0) if phase != before.phase => 4,
            (Operation::Read { address: 0x28 }, 10) => 5,
            (
                Operation::Write {
                    address: 0x20,
                    value,
                },
                10,
            ) if is_nop(value) => 6,
            (Operation::Write { address, .. }, 10) if (0x21..=0x27).contains(&address) => 7,
            (Operation::Step, 1) => 8,
            _ => return,
        };
        self.asked[asked] += 1;
    }

    /// Fails where a code was begun, or moved positions, fewer times than `least`. Of 2 blocks MVT has no place
    /// where its three bytes are fitted, and does neither.
    pub fn assert_codes(&self, board: Board, least: usize) {
        for (code, (executed, stepped)) in self.executed.iter().zip(self.stepped).enumerate() {
            let fits = board != Board::TWO || code < 8;
            self.assert_met(executed[0], fits, least);
            self.assert_met(stepped, fits, least);
        }
    }

    /// Fails where a code got a refusal that it can get on a board, or something else that it can show was met,
    /// fewer times than `least`, or what it cannot at all: a full board has no 11, and of 2 blocks MVD fits in
    /// one alone, so that no bytes of a step meet and none go round a district.
    pub fn assert_varied(&self, board: Board, least: usize) {
        for [_, three, four, eleven] in self.executed {
            self.assert_met(three, false, least);
            self.assert_met(four, true, least);
            self.assert_met(eleven, !board.is_full(), least);
        }
        for (what, times) in STEPS.into_iter().zip(self.steps) {
            let meets = what == "that saw a byte of their own" || what.contains("district");
            self.assert_met(times, !(board == Board::TWO && meets), least);
        }
        for times in self.asked.into_iter().chain(self.idle) {
            self.assert_met(times, true, least);
        }
    }

    fn assert_met(&self, times: usize, can_be: bool, least: usize) {
        let is_met = if can_be { times >= least } else { times == 0 };
        assert!(is_met, "{times} times: {self}");
    }

    /// Fails where a read or a write was refused by 10 fewer times than `least`.
    pub fn assert_refused(&self, least: usize) {
        assert!(self.refused.iter().all(|times| *times >= least), "{self}");
    }

    /// Fails where a part that has no move showed something else than refusals by 3, each code at least so
    /// often, and steps that found nothing running.
    pub fn assert_none(&self, least: usize) {
        for [begun, three, four, eleven] in self.executed {
            assert_eq!([begun, four, eleven], [0; 3], "{self}");
            assert!(three >= least, "{self}");
        }
        let mut never = self.stepped.iter().chain(&self.steps);
        assert!(never.all(|times| *times == 0), "{self}");
        let mut never = self.asked.iter().chain(&self.refused);
        assert!(never.all(|times| *times == 0), "{self}");
        assert!(self.idle.iter().all(|times| *times >= least), "{self}");
    }
}

fn code_of(command: u8) -> Option<usize> {
    MOVES.iter().position(|code| *code == command)
}

fn is_nop(value: u8) -> bool {
    [0x90, 0x91].contains(&value)
}

impl fmt::Display for Moves {
    fn fmt(&self, to: &mut fmt::Formatter) -> fmt::Result {
        write!(to, "moves begun, refused by 3, 4, 11, and positions moved:")?;
        for (code, (executed, stepped)) in MOVES.iter().zip(self.executed.iter().zip(self.stepped))
        {
            write!(to, " {code:02X} {executed:?} {stepped},")?;
        }
        writeln!(to)?;
        for (what, times) in STEPS.iter().zip(self.steps) {
            writeln!(to, "steps {what}: {times}")?;
        }
        for (what, times) in ASKED.iter().zip(self.asked) {
            writeln!(to, "while a move ran, {what}: {times}")?;
        }
        let (refused, idle) = (self.refused, self.idle);
        writeln!(to, "reads, writes refused by 10: {refused:?}")?;
        write!(
            to,
            "steps while nothing ran, accepted, refused by 1: {idle:?}"
        )
    }
}
