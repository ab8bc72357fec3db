//! Random sequences of operations, aimed so that most of them touch what the screen shows.

mod choices;
mod eighty;
mod forty;
mod moves;
mod registers;
mod writes;

use std::collections::VecDeque;

use crate::board::Board;
use crate::mode::Mode;
use crate::operation::Operation;
use crate::processor::Processor;
use crate::random::Random;
use crate::BLOCK;

pub use choices::{bichrome_b, short_palette};
pub use moves::MOVES;

/// A source of operations: it makes small plans from the present state and hands them out one
/// operation at a time.
pub struct Sequence {
    random: Random,
    waiting: VecDeque<Operation>,
    /// In a calm sequence few cells are double height, so that few lists go upward.
    calm: bool,
    /// In a still one few cells flash, so that few rows are marked by a phase change.
    still: bool,
}

/// The listed commands, and three that are refused.
const COMMANDS: [u8; 43] = [
    0x00, 0x01, 0x08, 0x09, 0x30, 0x31, 0x34, 0x35, 0x38, 0x39, 0x3C, 0x3D, 0x50, 0x51, 0x58, 0x59,
    0x81, 0x82, 0x83, 0x84, 0x87, 0x89, 0x8A, 0x8B, 0x8C, 0x8F, 0x90, 0x91, 0x05, 0x52, 0x80, 0xD5,
    0xD6, 0xD9, 0xDA, 0xE5, 0xE6, 0xE9, 0xEA, 0xF5, 0xF6, 0xF9, 0xFA,
];

impl Sequence {
    pub fn new(seed: u64) -> Self {
        let mut random = Random::new(seed);
        let (calm, still) = (random.one_in(2), random.one_in(3));
        Sequence {
            random,
            waiting: VecDeque::new(),
            calm,
            still,
        }
    }

    /// A private memory of so many blocks to begin with: zero, or any bytes, in which few cells may be
    /// double height and few may flash.
    pub fn memory(&mut self, blocks: usize) -> Vec<u8> {
        let length = BLOCK * blocks;
        if self.random.one_in(4) {
            return vec![0; length];
        }
        let mut memory = self.random.bytes(length);
        // Which blocks hold B and A bytes, or attributes, depends on the origin, so bit 1 of B is
        // cleared everywhere; so are bit 3 of A, and bits 6 and 2 of attributes, which flash.
        if self.calm {
            self.clear_most(&mut memory, 0x02);
        }
        if self.still {
            self.clear_most(&mut memory, 0x4C);
        }
        memory
    }

    /// Clears some bits of every byte but one in 200.
    fn clear_most(&mut self, memory: &mut [u8], bits: u8) {
        for byte in memory {
            if !self.random.one_in(200) {
                *byte &= !bits;
            }
        }
    }

    /// The next operation for this state and memory.
    pub fn operation(&mut self, processor: &Processor, memory: &[u8]) -> Operation {
        loop {
            match self.waiting.pop_front() {
                // Most steps of a move that was refused, or has ended, are left out.
                Some(Operation::Step) if !processor.busy && !self.random.one_in(4) => {}
                Some(operation) => return operation,
                None => self.plan(processor, memory),
            }
        }
    }

    /// One plan, and a draw after one in three, so that few changes stand between two draws.
    fn plan(&mut self, processor: &Processor, memory: &[u8]) {
        if processor.busy {
            return self.plan_while_busy(processor);
        }
        if processor.page_refusal().is_some() && self.random.one_in(4) {
            return self.mend(processor);
        }
        // On a smaller board, and on that of 32 blocks, few other plans store outside the page.
        let times = match processor.board {
            Board::SIXTEEN => None,
            Board::TS9347 => Some(7),
            _ => Some(12),
        };
        if times.is_some_and(|times| self.random.one_in(times)) {
            return self.one_byte(processor);
        }
        // The TS9347 has no move: each gets 3, and each step then finds nothing that runs.
        // Of 2 blocks most are refused by 11.
        let times = match processor.board {
            Board::TWO => 12,
            Board::TS9347 => 200,
            _ => 20,
        };
        if self.random.one_in(times) {
            return self.one_move(processor, memory);
        }
        match self.random.below(100) {
            0..=75 => match processor.page(memory).mode {
                Mode::Forty => self.change_forty(processor, memory),
                Mode::Eighty => self.change_eighty(processor, memory),
            },
            76..=77 => self.change_mode(processor),
            78..=81 => self.one_register(processor),
            82..=87 => self.turn(processor),
            88..=90 => self.read_back(processor),
            91..=92 => self.waiting.push_back(Operation::Draw),
            _ => self.any_access(),
        }
        if self.random.one_in(3) {
            self.waiting.push_back(Operation::Draw);
        }
    }

    /// Most often the other phase; at times the present one, or one that is refused.
    fn turn(&mut self, processor: &Processor) {
        let phase = match self.random.below(12) {
            0 => self.random.byte(),
            1 => processor.phase,
            _ => 1 - processor.phase % 2,
        };
        self.waiting.push_back(Operation::Turn { phase });
    }

    /// A read form of KRF, KRL or OCT on the shown page, and the registers that it filled.
    fn read_back(&mut self, processor: &Processor) {
        let (row, position) = (self.row(), self.position());
        self.point_at_position(processor, row, position);
        let command = self.random.choice(&[
            0x08, 0x09, 0x38, 0x39, 0x3C, 0x3D, 0x58, 0x59, 0x58, 0x59, 0x89, 0x8F,
        ]);
        self.write(0x28, command);
        for address in [0x21, 0x22, 0x23, 0x27, 0x20] {
            self.waiting.push_back(Operation::Read { address });
        }
    }

    /// Any access at all, most often at an address of the processor and with a listed command.
    fn any_access(&mut self) {
        let address = if self.random.one_in(16) {
            self.random.byte()
        } else {
            0x20 + self.random.byte() % 16
        };
        let operation = if self.random.one_in(3) {
            Operation::Read { address }
        } else if address % 8 == 0 && !self.random.one_in(8) {
            let value = self.random.choice(&COMMANDS);
            Operation::Write { address, value }
        } else {
            let value = self.random.byte();
            Operation::Write { address, value }
        };
        self.waiting.push_back(operation);
    }
}
