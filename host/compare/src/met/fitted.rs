//! What the operations met of blocks that are fitted and of others: commands refused by 11 and accepted,
//! and pages that were drawn.

use std::fmt;

use second::address::code_block;
use second::{Board, Operation, Processor};

use crate::trial::Step;

/// The commands that use a pointer: three bytes, two, and one by either pointer.
const FORMS: [(&str, [u8; 4]); 4] = [
    ("KRF", [0x00, 0x01, 0x08, 0x09]),
    ("KRL", [0x50, 0x51, 0x58, 0x59]),
    ("OCT", [0x30, 0x31, 0x38, 0x39]),
    ("OCT, auxiliary", [0x34, 0x35, 0x3C, 0x3D]),
];

/// Pages by which of their three blocks are fitted, the first one first.
const PAGES: [(&str, [bool; 3]); 4] = [
    ("whole", [true; 3]),
    ("without their third block", [true, true, false]),
    ("with their third block alone", [false, false, true]),
    ("not fitted", [false; 3]),
];

#[derive(Default)]
pub struct Fitted {
    /// By the form of the command: executed, and refused by 11.
    forms: [[[usize; 2]; 4]; FORMS.len()],
    /// By the kind of page, in 40 columns and in 80: accepted draws of some rows, and of all.
    draws: [[[usize; 2]; 2]; PAGES.len()],
    /// Stores, steps and phase changes that marked a row which was not, by the kind of page.
    marking: [usize; PAGES.len()],
    /// Operations that were refused by 1 for a memory that is right for another board.
    other_boards: usize,
}

impl Fitted {
    pub fn look(&mut self, step: &Step) {
        self.look_at_command(step);
        let (before, report) = (&step.before, &step.report);
        let page = kind_of_page(before);
        match step.asked.operation {
            Operation::Draw if report.number == 0 && report.value > 0 => {
                let is_eighty = usize::from(before.tgs >= 0xC0);
                self.draws[page][is_eighty][usize::from(report.value == 25)] += 1;
            }
            Operation::Write { .. }
            | Operation::Read { .. }
            | Operation::Step
            | Operation::Turn { .. } => {
                let mut rows = before.marks.iter().zip(report.marks);
                let marks = rows.any(|(was, is)| !was && is == 1);
                // A changed register marks every row.
                let is_partial = marks && report.marks.contains(&0);
                self.marking[page] += usize::from(is_partial);
            }
            _ => {}
        }
        let lengths = step.asked.lengths(before.mode(), before.board);
        let mut boards = Board::ALL.iter().map(|board| board.memory());
        let is_other = boards.any(|length| length == lengths.memory);
        self.other_boards += usize::from(report.number == 1 && is_other);
    }

    fn look_at_command(&mut self, step: &Step) {
        let address = match step.asked.operation {
            Operation::Write { address, .. } | Operation::Read { address } => address,
            _ => return,
        };
        let refused = match step.report.number {
            0 => 0,
            11 => 1,
            _ => return,
        };
        let command = step.report.registers[0];
        for (at, (_, forms)) in FORMS.iter().enumerate() {
            let form = forms.iter().position(|form| *form == command);
            if let (Some(form), 0x28..=0x2F) = (form, address) {
                self.forms[at][form][refused] += 1;
            }
        }
    }

    /// Fails where a form was executed or refused by 11 fewer times than `least`, and a board that is not
    /// full does it at all.
    pub fn assert_forms(&self, board: Board, least: usize) {
        for ((name, _), forms) in FORMS.iter().zip(self.forms) {
            for [executed, refused] in forms {
                let never = board == Board::TWO && ["KRF", "KRL"].contains(name);
                assert!((executed >= least) != never, "{self}");
                assert!(refused >= least, "{self}");
            }
        }
    }

    /// Fails where pages of these kinds were drawn, in either mode, in part or wholly, fewer times than
    /// `least`, or were marked so rarely; or where a page that is not fitted was marked in part.
    pub fn assert_pages(&self, kinds: &[&str], least: usize) {
        for (kind, (name, fitted)) in PAGES.iter().enumerate() {
            let is_fitted = fitted.contains(&true);
            assert!(is_fitted || self.marking[kind] == 0, "{name}: {self}");
            if kinds.contains(name) {
                let mut draws = self.draws[kind].iter().flatten();
                assert!(draws.all(|times| *times >= least), "{name}: {self}");
                assert!(self.marking[kind] >= least, "{name}: {self}");
            }
        }
    }

    /// Fails where a memory that is right for another board was refused fewer times than `least`.
    pub fn assert_other_boards(&self, least: usize) {
        assert!(self.other_boards >= least, "{self}");
    }
}

fn kind_of_page(processor: &Processor) -> usize {
    let (first, board) = (processor.first_block(), processor.board);
    let fitted = [0, 1, 2].map(|byte| code_block(first, byte) < board.blocks);
    let kind = PAGES.iter().position(|(_, page)| *page == fitted);
    kind.unwrap_or_else(|| panic!("page at {first}: {fitted:?} of {board:?}"))
}

impl fmt::Display for Fitted {
    fn fmt(&self, to: &mut fmt::Formatter) -> fmt::Result {
        for ((name, _), forms) in FORMS.iter().zip(self.forms) {
            writeln!(to, "{name}, each form executed, refused by 11: {forms:?}")?;
        }
        for (kind, (name, _)) in PAGES.iter().enumerate() {
            let ([forty, eighty], marking) = (self.draws[kind], self.marking[kind]);
            write!(to, "pages {name}: draws of some rows, of all ")?;
            writeln!(to, "{forty:?}, in 80 columns {eighty:?}; marking {marking}")?;
        }
        let others = self.other_boards;
        write!(to, "memories of another board refused: {others}")
    }
}
