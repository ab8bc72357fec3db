//! What the operations met of KRL: each of its four forms, at every kind of position.

use std::fmt;

use second::{Board, Operation};

use crate::trial::Step;

/// Write, write with increment, read, read with increment.
const FORMS: [u8; 4] = [0x50, 0x51, 0x58, 0x59];

/// Where it was executed.
const KINDS: [&str; 6] = [
    "even",
    "odd",
    "odd at X 39",
    "refused by 4",
    "refused by 11",
    "refused by 3",
];

/// How often each form was executed at each kind of position.
#[derive(Default)]
pub struct Krl {
    counts: [[usize; KINDS.len()]; FORMS.len()],
}

impl Krl {
    pub fn look(&mut self, step: &Step) {
        let executed = FORMS.iter().position(|form| executes(step, *form));
        if let Some(form) = executed {
            self.counts[form][kind(step)] += 1;
        }
    }

    /// Fails where a form was met at a kind of position that a board has fewer times than `least`, or at
    /// another one at all: 2 blocks have no position of which both bytes are fitted, 16 have no other, and
    /// the TS9347 has no KRL.
    pub fn assert_varied(&self, board: Board, least: usize) {
        let has = match board.blocks {
            2 => [false, false, false, true, true, false],
            8 => [true, true, true, true, true, false],
            16 => [true, true, true, true, false, false],
            _ => [false, false, false, false, false, true],
        };
        for counts in self.counts {
            for (count, has) in counts.into_iter().zip(has) {
                assert!(if has { count >= least } else { count == 0 }, "{self}");
            }
        }
    }
}

/// Whether the step has executed the command of a byte, or was refused for it, its pointer or its block.
fn executes(step: &Step, command: u8) -> bool {
    let address = match step.asked.operation {
        Operation::Write { address, .. } | Operation::Read { address } => address,
        _ => return false,
    };
    let is_executed = address >= 0x28 && [0, 3, 4, 11].contains(&step.report.number);
    is_executed && step.report.registers[0] == command
}

/// The kind of position that R7 named when the command began: the one written, or the one before.
fn kind(step: &Step) -> usize {
    let r7 = match step.asked.operation {
        Operation::Write {
            address: 0x2F,
            value,
        } => value,
        _ => step.before.registers[7],
    };
    match (step.report.number, r7 / 0x80, r7 % 0x40) {
        (4, _, _) => 3,
        (11, _, _) => 4,
        (3, _, _) => 5,
        (_, 0, _) => 0,
        (_, _, 39) => 2,
        _ => 1,
    }
}

impl fmt::Display for Krl {
    fn fmt(&self, to: &mut fmt::Formatter) -> fmt::Result {
        write!(to, "KRL {KINDS:?}:")?;
        for (form, counts) in FORMS.iter().zip(self.counts) {
            write!(to, " {form:02X} {counts:?}")?;
        }
        Ok(())
    }
}
