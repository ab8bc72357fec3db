//! Plans that change an indirect register.

use crate::mode::Mode;
use crate::part::Part;
use crate::processor::Processor;

use super::Sequence;

impl Sequence {
    /// Makes the page drawable again, in any mode of the part.
    pub(super) fn mend(&mut self, processor: &Processor) {
        let mode = self.random.choice(Mode::all_of(processor.board.part));
        let (tgs, pat) = (self.tgs(mode), self.random.byte());
        let ror = self.origin(processor.board);
        self.indirect(1, tgs);
        self.indirect(3, pat % 0x80);
        self.indirect(7, ror);
        // DOR 7 is a bit of the page's first block there, and is 0 at power-up.
        if processor.board.part == Part::Ts9347 {
            let dor = self.user_sets(processor.board);
            self.indirect(4, dor);
        }
    }

    /// Any other page.
    fn change_page(&mut self, processor: &Processor) {
        let (ror, dor) = (
            self.origin(processor.board),
            self.user_sets(processor.board),
        );
        self.indirect(7, ror);
        self.indirect(4, dor);
    }

    /// The other mode, or any where there is none; of a part that has one alone, another page.
    pub(super) fn change_mode(&mut self, processor: &Processor) {
        let modes = Mode::all_of(processor.board.part);
        if modes.len() == 1 {
            return self.change_page(processor);
        }
        let any = self.random.choice(modes);
        let mode = processor.mode().map_or(any, Mode::other);
        let tgs = self.tgs(mode);
        self.indirect(1, tgs);
    }

    /// A value for TGS that names a mode and is not refused.
    fn tgs(&mut self, mode: Mode) -> u8 {
        mode.tgs() + self.random.byte() % 0x20
    }

    /// One indirect register: a new value, the present one with one bit changed, or the present
    /// one.
    pub(super) fn one_register(&mut self, processor: &Processor) {
        let (r, present) = self.random.choice(&[
            (1, processor.tgs),
            (2, processor.mat),
            (2, processor.mat),
            (3, processor.pat),
            (4, processor.dor),
            (4, processor.dor),
            (7, processor.ror),
            (7, processor.ror),
        ]);
        let value = match self.random.below(8) {
            0 => self.random.byte(),
            1 => present,
            2..=4 => present ^ (1 << self.random.below(8)),
            _ => match r {
                1 => self.tgs(processor.mode().unwrap_or(Mode::Forty)),
                3 => self.random.byte() % 0x80,
                4 => self.user_sets(processor.board),
                7 => self.origin(processor.board),
                _ => self.random.byte(),
            },
        };
        self.indirect(r, value);
    }
}
