//! The writes that plans are made of.

use crate::address::{code_block, fitted};
use crate::cell::Cell;
use crate::operation::Operation;
use crate::page::screen_y;
use crate::part::Part;
use crate::pointer::Pointer;
use crate::processor::Processor;

use super::Sequence;

impl Sequence {
    pub(super) fn write(&mut self, address: u8, value: u8) {
        self.waiting.push_back(Operation::Write { address, value });
    }

    pub(super) fn indirect(&mut self, r: u8, value: u8) {
        self.write(0x21, value);
        self.write(0x28, 0x80 + r);
    }

    /// Bit 6 of R6, where it is the auxiliary pointer's, is left to chance.
    fn point_at(&mut self, part: Part, pointer: Pointer) {
        let (down, across) = pointer.main_registers(part);
        let is_other = part == Part::Ef9345 && self.random.one_in(2);
        let other = if is_other { 0x40 } else { 0 };
        self.write(0x26, down + other);
        self.write(0x27, across);
    }

    pub(super) fn point_at_cell(&mut self, processor: &Processor, row: usize, column: usize) {
        let pointer = Pointer {
            x: column,
            y: screen_y(processor.ror, row),
            z: processor.first_block(),
        };
        self.point_at(processor.board.part, pointer);
    }

    /// At the even positions the pointer is that of a cell of 40 columns.
    pub(super) fn point_at_position(&mut self, processor: &Processor, row: usize, position: usize) {
        let pointer = Pointer {
            x: position / 2,
            y: screen_y(processor.ror, row),
            z: processor.first_block() + position % 2,
        };
        self.point_at(processor.board.part, pointer);
    }

    pub(super) fn store_cell(
        &mut self,
        processor: &Processor,
        row: usize,
        column: usize,
        cell: Cell,
    ) {
        if self.goes_by_bytes(processor) {
            return self.store_bytes(processor, row, column, [cell.c, cell.b, cell.a]);
        }
        self.point_at_cell(processor, row, column);
        self.write(0x22, cell.b);
        self.write(0x23, cell.a);
        let command = self.random.choice(&[0x00, 0x01]);
        self.write(0x20, command);
        self.write(0x29, cell.c);
    }

    /// KRL of a C byte and an R3 at a position.
    pub(super) fn store_code(
        &mut self,
        processor: &Processor,
        row: usize,
        position: usize,
        c: u8,
        r3: u8,
    ) {
        if self.goes_by_bytes(processor) {
            return self.store_bytes(processor, row, position / 2, [c, c, r3]);
        }
        self.point_at_position(processor, row, position);
        self.write(0x23, r3);
        let command = self.random.choice(&[0x50, 0x51]);
        self.write(0x20, command);
        self.write(0x29, c);
    }

    /// Whether a code goes by OCT, a byte at a time. Where a block of the page is not fitted KRF and KRL
    /// are refused, so that most do.
    fn goes_by_bytes(&mut self, processor: &Processor) -> bool {
        let first = processor.first_block();
        let is_fitted = |byte| fitted(code_block(first, byte), processor.board.blocks);
        !(0..3).all(is_fitted) && !self.random.one_in(4)
    }

    /// The three bytes of a column by OCT: those that are fitted, and now and then one that is not.
    fn store_bytes(&mut self, processor: &Processor, row: usize, column: usize, values: [u8; 3]) {
        for (byte, value) in values.into_iter().enumerate() {
            let pointer = Pointer {
                x: column,
                y: screen_y(processor.ror, row),
                z: code_block(processor.first_block(), byte),
            };
            if fitted(pointer.z, processor.board.blocks) || self.random.one_in(6) {
                let auxiliary = self.random.one_in(2);
                self.store_byte(processor, pointer, auxiliary, value);
            }
        }
    }

    /// A byte at any legal place of the board, and now and then of a block that it does not have.
    pub(super) fn one_byte(&mut self, processor: &Processor) {
        let blocks = if self.random.one_in(4) {
            processor.board.part.named_blocks()
        } else {
            processor.board.blocks
        };
        let pointer = Pointer {
            x: self.column(),
            y: screen_y(8, self.row()),
            z: self.random.below(blocks),
        };
        let (auxiliary, value) = (self.random.one_in(2), self.value());
        self.store_byte(processor, pointer, auxiliary, value);
    }

    /// One bit of a byte of the shown page, so that a cell changes in one respect alone.
    pub(super) fn one_code_bit(&mut self, processor: &Processor, memory: &[u8]) {
        let (row, column, byte) = (self.row(), self.column(), self.random.below(3));
        let pointer = Pointer {
            x: column,
            y: screen_y(processor.ror, row),
            z: code_block(processor.first_block(), byte),
        };
        // A place past the end is not fitted: it has no bits, and the store is refused.
        let present = memory.get(pointer.place()).copied().unwrap_or(0);
        let value = present ^ (1 << self.random.below(8));
        let auxiliary = self.random.one_in(2);
        self.store_byte(processor, pointer, auxiliary, value);
    }

    pub(super) fn store_byte(
        &mut self,
        processor: &Processor,
        pointer: Pointer,
        auxiliary: bool,
        value: u8,
    ) {
        let part = processor.board.part;
        let increment = self.random.choice(&[0, 1]);
        if auxiliary {
            let (down, across, z3) = pointer.auxiliary_registers(part);
            self.write(0x24, down);
            self.write(0x25, across);
            if let Some(z3) = z3 {
                let keep = processor.registers[6] & 0xBF;
                self.write(0x26, keep + if z3 { 0x40 } else { 0 });
            }
            self.write(0x20, 0x34 + increment);
        } else {
            let (down, across) = pointer.main_registers(part);
            self.write(0x26, down);
            self.write(0x27, across);
            self.write(0x20, 0x30 + increment);
        }
        self.write(0x29, value);
    }
}
