//! The running of a listed command on the state and the private memory.

use crate::address::{code_block, fitted, place};
use crate::command::{attributes_block, Command, Indirect};
use crate::packing::{in_both_halves, nibble};
use crate::page::Page;
use crate::pointer::{Pointer, Which};
use crate::processor::Processor;
use crate::rules::Rules;
use crate::ROWS;

impl Processor {
    /// Runs the command in R0 and returns 0, or returns refusal 3, 4 or 11 with nothing done.
    pub(crate) fn execute<R: Rules>(&mut self, rules: &R, memory: &mut [u8]) -> u8 {
        let Some(command) = Command::listed(self.board.part, self.registers[0]) else {
            return 3;
        };
        if let Some(number) = self.pointer_refusal(rules, command) {
            return number;
        }
        // "An accepted KRF or OCT first clears both LX bits", and so do KRL and the moves: those are the
        // commands that use a pointer.
        if !command.pointers().is_empty() {
            self.lx_main = false;
            self.lx_auxiliary = false;
        }
        self.run(rules, memory, command);
        0
    }

    /// Refusal 4 for a pointer of the command, then 11 for a byte of it: "11, a command any of whose bytes
    /// lies in a block not fitted, after 4". Of a move both look at both pointers.
    pub(crate) fn pointer_refusal<R: Rules>(&self, rules: &R, command: Command) -> Option<u8> {
        let pointers = command.pointers().iter();
        let pointers: Vec<Pointer> = pointers
            .map(|which| rules.pointer(self.board.part, &self.registers, *which))
            .collect();
        let is_fitted = |z: usize| fitted(z, self.board.blocks);
        if pointers.iter().any(|pointer| !pointer.legal()) {
            Some(4)
        } else if !pointers
            .iter()
            .all(|pointer| command.blocks(pointer.z).into_iter().all(is_fitted))
        {
            Some(11)
        } else {
            None
        }
    }

    fn run<R: Rules>(&mut self, rules: &R, memory: &mut [u8], command: Command) {
        match command {
            // "One without runs until a NOP is executed", and one with a stop ends by it too.
            Command::Nop => self.busy = false,
            Command::Ind { register, read } => {
                if read {
                    self.registers[1] = *self.indirect(register);
                } else {
                    self.set_indirect(rules, register);
                }
            }
            Command::Krf { increment, read } => {
                self.long_code(rules, memory, read);
                if increment {
                    self.increment(Which::Main);
                }
            }
            Command::Krl { increment, read } => {
                self.packed_code(rules, memory, read);
                if increment {
                    self.next_position();
                }
            }
            Command::Oct {
                pointer,
                increment,
                read,
            } => {
                self.one_byte(rules, memory, pointer, read);
                if increment {
                    self.increment(pointer);
                }
            }
            // "Nothing has moved yet."
            Command::Move(_) => self.busy = true,
        }
    }

    fn indirect(&mut self, register: Indirect) -> &mut u8 {
        match register {
            Indirect::Tgs => &mut self.tgs,
            Indirect::Mat => &mut self.mat,
            Indirect::Pat => &mut self.pat,
            Indirect::Dor => &mut self.dor,
            Indirect::Ror => &mut self.ror,
        }
    }

    /// R1 to an indirect register. "A changed value" compares whole bytes, also the bits that the
    /// drawing ignores, and marks also while a draw would be refused.
    fn set_indirect<R: Rules>(&mut self, rules: &R, register: Indirect) {
        let value = self.registers[1];
        if *self.indirect(register) == value {
            return;
        }
        let before = self.mode();
        *self.indirect(register) = value;
        if rules.register_marks(register, before, self.mode()) {
            self.marks = [true; ROWS];
        }
    }

    /// KRF's three bytes: "R1, R2, R3 are the C, B, A bytes", in that order in blocks Z, Z+1, Z+2
    /// of the district. They are three stores, each with the lists just before it.
    fn long_code<R: Rules>(&mut self, rules: &R, memory: &mut [u8], read: bool) {
        let pointer = rules.pointer(self.board.part, &self.registers, Which::Main);
        for byte in 0..3 {
            let place = place(pointer.x, pointer.y, code_block(pointer.z, byte));
            if read {
                self.registers[1 + byte] = memory[place];
            } else {
                self.store(rules, memory, place, self.registers[1 + byte]);
            }
        }
    }

    /// KRL's 12 bits. C is at X and Y in the pointer's own block, whose Z0 says even or odd, and the
    /// attributes are in a block of theirs. They are two stores, C first, each with the lists just
    /// before it. R2 stays.
    fn packed_code<R: Rules>(&mut self, rules: &R, memory: &mut [u8], read: bool) {
        let pointer = rules.pointer(self.board.part, &self.registers, Which::Main);
        let odd = pointer.z % 2 == 1;
        let attributes = place(pointer.x, pointer.y, attributes_block(pointer.z));
        if read {
            self.registers[1] = memory[pointer.place()];
            self.registers[3] = in_both_halves(nibble(memory[attributes], odd));
        } else {
            self.store(rules, memory, pointer.place(), self.registers[1]);
            let packed = rules.attributes(memory[attributes], self.registers[3], odd);
            self.store(rules, memory, attributes, packed);
        }
    }

    /// OCT: R1 with one byte.
    fn one_byte<R: Rules>(&mut self, rules: &R, memory: &mut [u8], which: Which, read: bool) {
        let place = rules
            .pointer(self.board.part, &self.registers, which)
            .place();
        if read {
            self.registers[1] = memory[place];
        } else {
            self.store(rules, memory, place, self.registers[1]);
        }
    }

    /// One store of an access.
    fn store<R: Rules>(&mut self, rules: &R, memory: &mut [u8], place: usize, value: u8) {
        self.store_marking(memory, place, value, |page, row| {
            rules.store_marks(page, row, place)
        });
    }

    /// One store: it marks before it changes the byte. "While a draw would get 7 or 8, a store or
    /// phase change marks nothing". A row that is marked already need not be asked again.
    pub(crate) fn store_marking(
        &mut self,
        memory: &mut [u8],
        place: usize,
        value: u8,
        marks: impl Fn(&Page, usize) -> bool,
    ) {
        if memory[place] == value {
            return;
        }
        if self.page_refusal().is_none() {
            let page = self.page(memory);
            for row in 0..ROWS {
                if !self.marks[row] && marks(&page, row) {
                    self.marks[row] = true;
                }
            }
        }
        memory[place] = value;
    }

    /// "Increment adds 1 to X of the pointer used; from 39 X goes to 0 and its LX bit is set. Y and
    /// the block stay." Bits 7 and 6 of the register are the block's.
    fn increment(&mut self, which: Which) {
        let (number, lx) = match which {
            Which::Main => (7, &mut self.lx_main),
            Which::Auxiliary => (5, &mut self.lx_auxiliary),
        };
        let across = &mut self.registers[number];
        if *across % 64 == 39 {
            *across -= 39;
            *lx = true;
        } else {
            *across += 1;
        }
    }

    /// KRL's increment: "from even to odd at the same X (Z0 set), from odd to the next X's even; from
    /// X 39, odd, to X 0, even, and sets LXm". Z0 is bit 7 of R7.
    fn next_position(&mut self) {
        if self.registers[7] < 0x80 {
            self.registers[7] += 0x80;
        } else {
            self.registers[7] -= 0x80;
            self.increment(Which::Main);
        }
    }
}
