//! Plans that change a page of 40 columns.

use crate::cell::Source;
use crate::operation::Operation;
use crate::pointer::Pointer;
use crate::processor::Processor;
use crate::{COLUMNS, LINES, ROWS};

use super::{bichrome_b, Sequence};

impl Sequence {
    pub(super) fn change_forty(&mut self, processor: &Processor, memory: &[u8]) {
        match self.random.below(76) {
            0..=13 => self.one_cell(processor),
            14..=21 => self.copy_above(processor, memory),
            22..=27 => self.copy_left(processor, memory),
            28..=33 => self.run_down(processor),
            34..=37 => self.run_along(processor),
            38..=56 => self.one_slice(processor, memory),
            57..=58 => self.codes_along(processor),
            _ => self.one_code_bit(processor, memory),
        }
    }

    pub(super) fn one_cell(&mut self, processor: &Processor) {
        let (row, column) = (self.row(), self.column());
        let cell = self.cell(processor.board.part);
        self.store_cell(processor, row, column, cell);
    }

    fn copy_above(&mut self, processor: &Processor, memory: &[u8]) {
        let (row, column) = (1 + self.random.below(ROWS - 1), self.column());
        let cell = processor.page(memory).cell(row - 1, column);
        self.store_cell(processor, row, column, cell);
    }

    fn copy_left(&mut self, processor: &Processor, memory: &[u8]) {
        let (row, column) = (self.row(), 1 + self.random.below(COLUMNS - 1));
        let cell = processor.page(memory).cell(row, column - 1);
        self.store_cell(processor, row, column, cell);
    }

    /// The same double height cell in two to five rows, one below the other; then, often, a draw
    /// and another cell at the top of the run, which turns every half below it over.
    fn run_down(&mut self, processor: &Processor) {
        let (top, column) = (self.row(), self.column());
        let mut cell = self.cell(processor.board.part);
        cell.b = bichrome_b(cell) | 0x02;
        let bottom = (top + 2 + self.random.below(4)).min(ROWS);
        for row in top..bottom {
            self.store_cell(processor, row, column, cell);
        }
        if self.random.one_in(2) {
            self.waiting.push_back(Operation::Draw);
            let other = self.cell(processor.board.part);
            self.store_cell(processor, top, column, other);
            self.waiting.push_back(Operation::Draw);
        }
    }

    /// The same cell in two to five columns by KRF with increment, past column 39 if it so falls.
    fn run_along(&mut self, processor: &Processor) {
        let (row, column) = (self.row(), self.column());
        let mut cell = self.cell(processor.board.part);
        if !self.random.one_in(4) {
            cell.b = bichrome_b(cell) | 0x08;
        }
        self.point_at_cell(processor, row, column);
        self.write(0x20, 0x01);
        self.write(0x22, cell.b);
        self.write(0x23, cell.a);
        for _ in 0..2 + self.random.below(4) {
            self.write(0x29, cell.c);
        }
    }

    /// A slice of a cell that is shown, through either pointer. In 80 columns, where the same bytes
    /// have no slices, it is a store that only the codes of a row may hold.
    pub(super) fn one_slice(&mut self, processor: &Processor, memory: &[u8]) {
        let page = processor.page(memory);
        let cell = page.cell(self.row(), self.column());
        let Source::Block(z) = cell.source(page.dor) else {
            return self.one_cell(processor);
        };
        let pointer = Pointer {
            x: 4 * self.random.below(LINES) + usize::from(cell.c % 4),
            y: usize::from(cell.c / 4 % 32),
            z,
        };
        let (auxiliary, value) = (self.random.one_in(2), self.value());
        self.store_byte(processor, pointer, auxiliary, value);
    }
}
