//! What the operations met of blocks: those that the commands used through each pointer, and those that
//! the drawn pages were in.

use std::fmt;

use second::pointer::{Pointer, Which};
use second::{Board, Operation};

use crate::trial::Step;

/// KRF and OCT, which use the main pointer, and OCT by the auxiliary one.
const FORMS: [(Which, &[u8]); 2] = [
    (
        Which::Main,
        &[0x00, 0x01, 0x08, 0x09, 0x30, 0x31, 0x38, 0x39],
    ),
    (Which::Auxiliary, &[0x34, 0x35, 0x3C, 0x3D]),
];

#[derive(Default)]
pub struct Blocks {
    /// By the pointer: executed commands by the block that it named.
    commands: [[usize; 32]; FORMS.len()],
    /// By the pointer: those of them that changed a byte.
    stores: [[usize; 32]; FORMS.len()],
    /// Accepted draws of some row by the page's first block, which is even.
    pages: [usize; 16],
}

impl Blocks {
    pub fn look(&mut self, step: &Step) {
        if step.report.number != 0 {
            return;
        }
        match step.asked.operation {
            Operation::Write { address, .. } | Operation::Read { address } => {
                self.look_at_command(step, address);
            }
            Operation::Draw => {
                let drawn = usize::from(step.report.value > 0);
                self.pages[step.before.first_block() / 2] += drawn;
            }
            _ => {}
        }
    }

    fn look_at_command(&mut self, step: &Step, address: u8) {
        let command = step.report.registers[0];
        for (at, (which, forms)) in FORMS.into_iter().enumerate() {
            if address % 16 >= 8 && forms.contains(&command) {
                // The increment leaves the block.
                let registers = &step.report.registers;
                let z = Pointer::of(step.before.board.part, registers, which).z;
                self.commands[at][z] += 1;
                self.stores[at][z] += usize::from(step.stored);
            }
        }
    }

    /// Fails where a block of the board was used by the commands of a pointer, or changed by them, or a page
    /// at an even one drawn, fewer times than `least`; or where another block was used at all.
    pub fn assert_every_one(&self, board: Board, least: usize) {
        for counts in self.commands.iter().chain(&self.stores) {
            let (fitted, others) = counts.split_at(board.blocks);
            assert!(fitted.iter().all(|times| *times >= least), "{self}");
            assert!(others.iter().all(|times| *times == 0), "{self}");
        }
        let (pages, others) = self.pages.split_at(board.blocks / 2);
        assert!(pages.iter().all(|times| *times >= least), "{self}");
        assert!(others.iter().all(|times| *times == 0), "{self}");
    }
}

impl fmt::Display for Blocks {
    fn fmt(&self, to: &mut fmt::Formatter) -> fmt::Result {
        for ((which, _), (commands, stores)) in
            FORMS.iter().zip(self.commands.iter().zip(self.stores))
        {
            writeln!(
                to,
                "{which:?} pointer, commands in each block: {commands:?}"
            )?;
            writeln!(to, "{which:?} pointer, changes in each block: {stores:?}")?;
        }
        write!(to, "draws of a page at each even block: {:?}", self.pages)
    }
}
