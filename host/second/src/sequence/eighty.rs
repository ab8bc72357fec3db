//! Plans that change a page of 80 columns.

use crate::packing::in_both_halves;
use crate::processor::Processor;

use super::Sequence;

impl Sequence {
    pub(super) fn change_eighty(&mut self, processor: &Processor, memory: &[u8]) {
        match self.random.below(76) {
            0..=19 => self.one_code(processor),
            20..=29 => self.codes_along(processor),
            30..=39 => self.one_attribute(processor, memory),
            40..=45 => self.one_cell(processor),
            46..=55 => self.one_slice(processor, memory),
            56..=58 => self.one_margin(processor),
            _ => self.one_code_bit(processor, memory),
        }
    }

    fn one_code(&mut self, processor: &Processor) {
        let (row, position, code) = (self.row(), self.position(), self.code());
        let r3 = self.r3(code.nibble);
        self.store_code(processor, row, position, code.c, r3);
    }

    /// Two to six codes of one kind by KRL with increment, past position 79 if it so falls.
    pub(super) fn codes_along(&mut self, processor: &Processor) {
        let (row, position, code) = (self.row(), self.position(), self.code());
        self.point_at_position(processor, row, position);
        self.write(0x20, 0x51);
        let r3 = self.r3(code.nibble);
        self.write(0x23, r3);
        for _ in 0..2 + self.random.below(5) {
            self.write(0x29, code.c);
        }
    }

    /// The present code with one bit of its nibble changed, so that one nibble alone is another.
    fn one_attribute(&mut self, processor: &Processor, memory: &[u8]) {
        let (row, position) = (self.row(), self.position());
        let code = processor.page(memory).code(row, position);
        let bit = 1 << self.random.below(4);
        let r3 = self.r3(code.nibble ^ bit);
        self.store_code(processor, row, position, code.c, r3);
    }

    /// MAT, most often with another colour of the background.
    fn one_margin(&mut self, processor: &Processor) {
        let bits = self.random.choice(&[3, 3, 8]);
        let bit = 1 << self.random.below(bits);
        self.indirect(2, processor.mat ^ bit);
    }

    /// Most often the nibble in both halves, as the data book asks; else in one of them, with any
    /// other beside it.
    fn r3(&mut self, nibble: u8) -> u8 {
        let both = in_both_halves(nibble);
        match self.random.below(6) {
            0 => both & 0x0F | self.random.byte() & 0xF0,
            1 => both & 0xF0 | self.random.byte() & 0x0F,
            _ => both,
        }
    }
}
