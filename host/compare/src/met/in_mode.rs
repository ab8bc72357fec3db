//! What the operations met while TGS named one mode.

use std::fmt;

use second::{Board, Operation};

use super::krl::Krl;
use crate::trial::Step;

/// How often each number was answered to each kind of operation.
type Numbers = [[usize; 15]; KINDS.len()];

const KINDS: [&str; 6] = ["write", "read", "phase change", "draw", "power-up", "step"];

/// The numbers that each kind of operation can get.
type Possible = [&'static [usize]; KINDS.len()];

/// On a smaller board.
const SMALLER: Possible = [
    &[0, 1, 2, 3, 4, 10, 11],
    &[0, 1, 2, 3, 4, 10, 11],
    &[0, 1, 9],
    &[0, 1, 5, 6, 7, 8],
    &[0, 12, 14],
    &[0, 1],
];

/// On that of 16 blocks, where every byte is fitted.
const SIXTEEN: Possible = [
    &[0, 1, 2, 3, 4, 10],
    &[0, 1, 2, 3, 4, 10],
    &[0, 1, 9],
    &[0, 1, 5, 6, 7, 8],
    &[0, 12, 14],
    &[0, 1],
];

/// On that of the TS9347, which has no move and so is never busy.
const TS9347: Possible = [
    &[0, 1, 2, 3, 4],
    &[0, 1, 2, 3, 4],
    &[0, 1, 9],
    &[0, 1, 5, 6, 7, 8],
    &[0, 12, 14],
    &[0, 1],
];

/// Where TGS names no mode a draw gets 7 before its picture is looked at.
const DRAW_IN_NO_MODE: &[usize] = &[1, 5, 7];

#[derive(Default)]
pub struct InMode {
    numbers: Numbers,
    /// Operations that left phase 0, or 1.
    phases: [usize; 2],
    /// Accepted draws by the number of rows.
    rows: [usize; 26],
    /// Accesses and steps that changed a byte of the memory.
    pub stores: usize,
    /// Those of them that left no row marked which was not before.
    pub unseen_stores: usize,
    /// Accesses that changed MAT.
    pub mats: usize,
    /// Phase changes that marked some rows more, and not all.
    pub marking_turns: usize,
    /// Draws of every row into another picture than the kept one.
    pub other_pictures: usize,
    /// Draws of a page after one in the other mode.
    pub other_modes: usize,
    /// Draws refused by 6 whose picture had the length of the other mode.
    pub other_lengths: usize,
    pub krl: Krl,
}

impl InMode {
    pub fn look(&mut self, step: &Step) {
        let (before, report) = (&step.before, &step.report);
        self.numbers[kind_of(step.asked.operation)][usize::from(report.number)] += 1;
        self.phases[usize::from(report.phase)] += 1;
        let marked = (0..).zip(report.marks);
        let marked = marked.filter(|(row, mark)| *mark == 1 && !before.marks[*row]);
        let marked = marked.count();
        if step.stored {
            self.stores += 1;
            self.unseen_stores += usize::from(marked == 0);
        }
        self.mats += usize::from(report.indirect[2] != before.mat);
        if report.phase != before.phase {
            self.marking_turns += usize::from((1..25).contains(&marked));
        }
        if step.asked.operation == Operation::Draw && report.number == 0 {
            self.rows[usize::from(report.value)] += 1;
        }
        self.other_pictures += usize::from(step.other_picture);
        self.other_modes += usize::from(step.other_mode);
        self.other_lengths += usize::from(has_other_length(step));
        self.krl.look(step);
    }

    pub fn operations(&self) -> usize {
        self.numbers.iter().flatten().sum()
    }

    /// Draws that redrew some rows and not all.
    pub fn partial_draws(&self) -> usize {
        self.rows[1..25].iter().sum()
    }

    /// Fails where a phase was left fewer times than `least`.
    pub fn assert_phases(&self, least: usize) {
        assert!(self.phases.iter().all(|count| *count >= least), "{self}");
    }

    /// How often a number was answered, to whatever operation.
    pub fn times(&self, number: usize) -> usize {
        self.numbers.iter().map(|counts| counts[number]).sum()
    }

    /// Fails where a number that a kind of operation can get on a board was met fewer times than
    /// `least`, or another one at all.
    pub fn assert_every_number(&self, board: Board, least: usize) {
        self.assert_numbers(of_board(board), least);
    }

    /// The same where TGS named no mode.
    pub fn assert_every_number_in_no_mode(&self, board: Board, least: usize) {
        let [write, read, turn, _, power_up, step] = of_board(board);
        let draw = DRAW_IN_NO_MODE;
        self.assert_numbers([write, read, turn, draw, power_up, step], least);
    }

    fn assert_numbers(&self, possible: Possible, least: usize) {
        for (kind, possible) in possible.into_iter().enumerate() {
            let name = KINDS[kind];
            for (number, count) in self.numbers[kind].into_iter().enumerate() {
                if possible.contains(&number) {
                    assert!(count >= least, "{name}: number {number} only {count} times");
                } else {
                    assert!(count == 0, "{name}: number {number}, which it cannot get");
                }
            }
        }
    }
}

fn of_board(board: Board) -> Possible {
    match board {
        Board::SIXTEEN => SIXTEEN,
        Board::TS9347 => TS9347,
        _ => SMALLER,
    }
}

/// Whether a draw is refused for a picture that would be right in the other mode.
fn has_other_length(step: &Step) -> bool {
    let mode = step.before.mode();
    let length = step.asked.lengths(mode, step.before.board).picture;
    let other = mode.map(|mode| mode.other().picture());
    step.report.number == 6 && Some(length) == other
}

fn kind_of(operation: Operation) -> usize {
    match operation {
        Operation::Write { .. } => 0,
        Operation::Read { .. } => 1,
        Operation::Turn { .. } => 2,
        Operation::Draw => 3,
        Operation::PowerUp { .. } => 4,
        Operation::Step => 5,
    }
}

impl fmt::Display for InMode {
    fn fmt(&self, to: &mut fmt::Formatter) -> fmt::Result {
        for (name, numbers) in KINDS.iter().zip(self.numbers) {
            writeln!(to, "{name}, numbers 0 to 14: {numbers:?} times")?;
        }
        writeln!(to, "left in phase 0, 1: {:?} times", self.phases)?;
        writeln!(to, "accepted draws of 0 to 25 rows: {:?}", self.rows)?;
        let (stores, unseen) = (self.stores, self.unseen_stores);
        writeln!(to, "stores: {stores}, which marked nothing more: {unseen}")?;
        writeln!(to, "changes of MAT: {}", self.mats)?;
        writeln!(to, "phase changes that marked: {}", self.marking_turns)?;
        let (others, turns) = (self.other_pictures, self.other_modes);
        writeln!(to, "draws into another picture: {others}")?;
        writeln!(to, "draws after one in the other mode: {turns}")?;
        let lengths = self.other_lengths;
        writeln!(to, "pictures of the other mode refused: {lengths}")?;
        write!(to, "{}", self.krl)
    }
}
