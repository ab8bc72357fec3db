//! Plans that begin a move, step it, ask while it runs and end it.

use crate::address::code_block;
use crate::cell::Source;
use crate::operation::Operation;
use crate::page::screen_y;
use crate::part::Part;
use crate::pointer::Pointer;
use crate::processor::Processor;
use crate::{COLUMNS, LINES};

use super::Sequence;

/// MVB, MVD and MVT, each with either source, with a stop and without.
pub const MOVES: [u8; 12] = [
    0xD5, 0xD6, 0xD9, 0xDA, 0xE5, 0xE6, 0xE9, 0xEA, 0xF5, 0xF6, 0xF9, 0xFA,
];

impl Sequence {
    /// A move from one pointer to the other, some steps of it, and most often its end.
    pub(super) fn one_move(&mut self, processor: &Processor, memory: &[u8]) {
        let command = self.move_command(processor);
        let [main, auxiliary] = self.both_pointers(processor, memory);
        self.point_both(processor.board.part, main, auxiliary);
        if self.random.one_in(3) {
            self.write(0x20, command);
            self.waiting.push_back(Operation::Read { address: 0x2B });
        } else {
            self.write(0x28, command);
        }
        let stops = command % 4 == 1;
        let columns = COLUMNS.saturating_sub(main.x.max(auxiliary.x));
        let steps = match self.random.below(8) {
            0 => self.random.below(3),
            1..=3 if stops => columns,
            4..=6 if stops => columns.min(6),
            _ => 1 + self.random.below(8),
        };
        for _ in 0..steps {
            self.one_step(processor);
        }
        // One with a stop may have ended: a step more changes nothing.
        match self.random.below(6) {
            0 => {}
            1 => self.waiting.push_back(Operation::Step),
            _ => self.abort(),
        }
    }

    /// Of 2 blocks MVT is always refused by 11, so that few are asked for.
    fn move_command(&mut self, processor: &Processor) -> u8 {
        if processor.board.blocks == 2 && !self.random.one_in(4) {
            return self.random.choice(&MOVES[..8]);
        }
        self.random.choice(&MOVES)
    }

    /// A step, and now and then a draw, a phase change or an access that is tried before it.
    fn one_step(&mut self, processor: &Processor) {
        match self.random.below(16) {
            0 => self.waiting.push_back(Operation::Draw),
            1 => self.turn(processor),
            2..=5 => self.try_access(),
            _ => {}
        }
        self.waiting.push_back(Operation::Step);
    }

    /// An access that is refused by 10 while a move runs, or one of the two that are not.
    fn try_access(&mut self) {
        let (register, value) = (self.random.byte() % 8, self.random.byte());
        let nop = self.random.choice(&[0x90, 0x91]);
        match self.random.below(12) {
            0 | 1 => self.waiting.push_back(Operation::Read { address: 0x20 }),
            2 => self.waiting.push_back(Operation::Read { address: 0x28 }),
            3 => self.write(0x20, nop),
            4 => self.write(0x29 + register % 7, nop),
            5 | 6 => self.write(0x21 + register % 7, value),
            7 => self.write(0x28, value),
            8 => self.waiting.push_back(Operation::Read {
                address: 0x20 + register,
            }),
            9 => self.waiting.push_back(Operation::Read {
                address: 0x28 + register,
            }),
            10 => self.write(0x28 + register, value),
            _ => self.any_access(),
        }
    }

    /// A NOP at an upper address.
    fn abort(&mut self) {
        let nop = self.random.choice(&[0x90, 0x91]);
        self.write(0x28, nop);
    }

    /// What is planned while a move runs: most often its end, so that other plans can be carried out.
    pub(super) fn plan_while_busy(&mut self, processor: &Processor) {
        match self.random.below(12) {
            0 => self.try_access(),
            1 => self.one_step(processor),
            2 => {
                for _ in 0..COLUMNS {
                    self.one_step(processor);
                }
            }
            3 => self.waiting.push_back(Operation::Draw),
            _ => self.abort(),
        }
    }

    /// Both pointers of a move: the main one and the auxiliary one, either of which may be the source.
    fn both_pointers(&mut self, processor: &Processor, memory: &[u8]) -> [Pointer; 2] {
        let one = self.shown_or_any(processor, memory);
        let other = match self.random.below(10) {
            0 | 1 => return self.in_one_district(processor, one),
            // The same row and block, a column or two away.
            2 | 3 => Pointer {
                x: (one.x + 1 + self.random.below(2)) % COLUMNS,
                ..one
            },
            // Another row of the same block, as where a page is scrolled.
            4 | 5 => Pointer {
                y: screen_y(8, self.row()),
                ..one
            },
            _ => self.shown_or_any(processor, memory),
        };
        let mut both = [one, other];
        if self.random.one_in(2) {
            both.reverse();
        }
        // Some begin at the beginning of a row, some near its end, and a few are refused by 4.
        match self.random.below(8) {
            0 => both = both.map(|pointer| Pointer { x: 0, ..pointer }),
            1..=3 => {
                let near = self.random.choice(&[0, 0, 1]);
                both[near].x = COLUMNS - 1 - self.random.below(4);
                if self.random.one_in(3) {
                    both[near].y = self.random.choice(&[0, 31]);
                }
            }
            4 if self.random.one_in(2) => {
                let illegal = self.random.below(2);
                both[illegal] = self.illegal();
            }
            _ => {}
        }
        both
    }

    /// The same X and Y in two blocks of a district: bytes of a step meet.
    fn in_one_district(&mut self, processor: &Processor, one: Pointer) -> [Pointer; 2] {
        let z = code_block(one.z, 1 + self.random.below(3));
        let z = self.fitted_block(processor, z);
        let mut both = [one, Pointer { z, ..one }];
        if self.random.one_in(2) {
            both.reverse();
        }
        both
    }

    /// A place of the shown page, a slice of a cell of it, or any place of the board; in the last row or the
    /// service row more often than in another, where rows end.
    fn shown_or_any(&mut self, processor: &Processor, memory: &[u8]) -> Pointer {
        let mut pointer = match self.random.below(8) {
            0..=3 => self.shown_place(processor),
            4 | 5 => self.shown_slice(processor, memory),
            _ => self.any_place(processor),
        };
        match self.random.below(8) {
            0 => pointer.y = 31,
            1 => pointer.y = 0,
            _ => {}
        }
        pointer
    }

    fn shown_place(&mut self, processor: &Processor) -> Pointer {
        let byte = self.random.choice(&[0, 0, 0, 1, 2]);
        Pointer {
            x: self.column(),
            y: screen_y(processor.ror, self.row()),
            z: self.fitted_block(processor, code_block(processor.first_block(), byte)),
        }
    }

    fn shown_slice(&mut self, processor: &Processor, memory: &[u8]) -> Pointer {
        let page = processor.page(memory);
        let cell = page.cell(self.row(), self.column());
        let Source::Block(z) = cell.source(page.dor) else {
            return self.any_place(processor);
        };
        Pointer {
            x: 4 * self.random.below(LINES) + usize::from(cell.c % 4),
            y: usize::from(cell.c / 4 % 32),
            z: self.fitted_block(processor, z),
        }
    }

    /// Districts that a move of three bytes leaves and enters again are as frequent as others.
    fn any_place(&mut self, processor: &Processor) -> Pointer {
        let z = self.random.below(processor.board.part.named_blocks());
        Pointer {
            x: self.column(),
            y: screen_y(8, self.row()),
            z: self.fitted_block(processor, z),
        }
    }

    /// A block, on a smaller board most often one that is fitted.
    fn fitted_block(&mut self, processor: &Processor, z: usize) -> usize {
        if self.random.one_in(8) {
            z
        } else {
            z % processor.board.blocks
        }
    }

    /// X above 39, or Y from 1 to 7.
    fn illegal(&mut self) -> Pointer {
        let (x, y) = self.random.choice(&[(40, 8), (63, 31), (0, 1), (39, 7)]);
        let z = self.random.below(2);
        Pointer { x, y, z }
    }

    fn point_both(&mut self, part: Part, main: Pointer, auxiliary: Pointer) {
        let (r6, r7) = main.main_registers(part);
        let (r4, r5, z3) = auxiliary.auxiliary_registers(part);
        let z3 = if z3 == Some(true) { 0x40 } else { 0 };
        for (address, value) in [(0x24, r4), (0x25, r5), (0x26, r6 + z3), (0x27, r7)] {
            self.write(address, value);
        }
    }
}
