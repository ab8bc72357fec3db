//! The processor's state and what a host may ask of it: accesses, the phase change and the draw. The
//! step of a move has a place of its own.

use std::collections::BTreeSet;

use crate::board::Board;
use crate::mode::Mode;
use crate::page::{first_block, Page};
use crate::picture::View;
use crate::rules::{PageRules, Rules};
use crate::{reading, ROWS};

/// The whole state. Private memory, ROM and picture are the host's and are lent to each call.
#[derive(Clone, Debug, PartialEq, Eq)]
pub struct Processor {
    /// R0 to R7 as written; R0 is the command, while R0 read is the status.
    pub registers: [u8; 8],
    pub tgs: u8,
    pub mat: u8,
    pub pat: u8,
    pub dor: u8,
    pub ror: u8,
    pub lx_main: bool,
    pub lx_auxiliary: bool,
    /// Whether a move runs: the one whose byte is in R0.
    pub busy: bool,
    pub phase: u8,
    pub marks: [bool; ROWS],
    /// "The size is given at power-up and stays", and "the part is chosen at power-up".
    pub board: Board,
}

/// What is handed back: the number of the page's table, and a value; the value of a draw is its
/// rows.
#[derive(Clone, Copy, Debug, PartialEq, Eq)]
pub struct Answer {
    pub number: u8,
    pub value: u8,
}

impl Answer {
    /// A refusal with value 0, or 0 rows.
    pub(crate) fn refusal(number: u8) -> Answer {
        Answer { number, value: 0 }
    }
}

impl Processor {
    /// Power-up of the EF9345 that has every block.
    pub fn power_up() -> Self {
        Processor::powered_up(Board::SIXTEEN)
    }

    /// Power-up of a board with a part and so many blocks. 12 "then hands back the power-up state of the
    /// 16 block board", and 14 "hands back what 12 does".
    pub fn power_up_board(part: u8, blocks: u8) -> (Processor, Answer) {
        match Board::named(part, blocks) {
            Ok(board) => {
                let accepted = Answer {
                    number: 0,
                    value: 0,
                };
                (Processor::powered_up(board), accepted)
            }
            Err(number) => (Processor::power_up(), Answer::refusal(number)),
        }
    }

    /// "Power-up: all registers and both LX bits 0, command 91 hex, phase 0, every row marked".
    fn powered_up(board: Board) -> Self {
        Processor {
            registers: [0x91, 0, 0, 0, 0, 0, 0, 0],
            tgs: 0,
            mat: 0,
            pat: 0,
            dor: 0,
            ror: 0,
            lx_main: false,
            lx_auxiliary: false,
            busy: false,
            phase: 0,
            marks: [true; ROWS],
            board,
        }
    }

    /// The bytes of private memory that the board has.
    pub fn memory_length(&self) -> usize {
        self.board.memory()
    }

    pub fn write(&mut self, memory: &mut [u8], address: u8, value: u8) -> Answer {
        self.write_with(&PageRules, memory, address, value)
    }

    pub fn read(&mut self, memory: &mut [u8], address: u8) -> Answer {
        self.read_with(&PageRules, memory, address)
    }

    /// The phase change.
    pub fn turn(&mut self, memory: &[u8], phase: u8) -> Answer {
        self.turn_with(&PageRules, memory, phase)
    }

    /// A write under given rules. The access comes first, then the command runs.
    pub fn write_with<R: Rules>(
        &mut self,
        rules: &R,
        memory: &mut [u8],
        address: u8,
        value: u8,
    ) -> Answer {
        // "Writing R0 with a NOP at an upper" address.
        let is_nop = address == 0x28 && (value == 0x90 || value == 0x91);
        if let Some(number) = self.access_refusal(rules, memory, address, is_nop) {
            return Answer::refusal(number);
        }
        self.registers[usize::from(address % 8)] = value;
        let number = self.execute_if_asked(rules, memory, address);
        Answer { number, value: 0 }
    }

    /// A read under given rules. It returns the value from before the command, also with
    /// refusals 3, 4 and 11.
    pub fn read_with<R: Rules>(&mut self, rules: &R, memory: &mut [u8], address: u8) -> Answer {
        // "A status read at a lower address".
        let is_status = address == 0x20;
        if let Some(number) = self.access_refusal(rules, memory, address, is_status) {
            return Answer::refusal(number);
        }
        let value = match address % 8 {
            0 => self.status(),
            register => self.registers[usize::from(register)],
        };
        let number = self.execute_if_asked(rules, memory, address);
        Answer { number, value }
    }

    /// The phase change under given rules. Setting the present phase again marks nothing.
    pub fn turn_with<R: Rules>(&mut self, rules: &R, memory: &[u8], phase: u8) -> Answer {
        if memory.len() != self.memory_length() {
            return Answer::refusal(1);
        }
        if phase != 0 && phase != 1 {
            return Answer::refusal(9);
        }
        if phase != self.phase && self.page_refusal().is_none() {
            let page = self.page(memory);
            for row in 0..ROWS {
                if rules.phase_marks(&page, row) {
                    self.marks[row] = true;
                }
            }
        }
        self.phase = phase;
        Answer {
            number: 0,
            value: 0,
        }
    }

    /// "An accepted draw redraws the marked rows and no other byte, returns their number and clears
    /// the marks."
    pub fn draw(&mut self, memory: &[u8], rom: &[u8], picture: &mut [u8]) -> Answer {
        self.draw_with(&PageRules, memory, rom, picture)
    }

    /// The draw under given rules.
    pub fn draw_with<R: Rules>(
        &mut self,
        rules: &R,
        memory: &[u8],
        rom: &[u8],
        picture: &mut [u8],
    ) -> Answer {
        if let Some(number) = self.draw_refusal(memory, rom, picture) {
            return Answer::refusal(number);
        }
        let view = self.view(memory, rom);
        let length = view.page.mode.row();
        let mut rows = 0;
        for row in 0..ROWS {
            if self.marks[row] {
                picture[length * row..length * (row + 1)].copy_from_slice(&rules.row(&view, row));
                rows += 1;
            }
        }
        self.marks = [false; ROWS];
        Answer {
            number: 0,
            value: rows,
        }
    }

    /// R0 read: "bit 7 busy, 6 set if either LX is set, 5 LXm, 4 LXa, others 0".
    pub fn status(&self) -> u8 {
        let mut status = 0;
        if self.busy {
            status += 0x80;
        }
        if self.lx_main || self.lx_auxiliary {
            status += 0x40;
        }
        if self.lx_main {
            status += 0x20;
        }
        if self.lx_auxiliary {
            status += 0x10;
        }
        status
    }

    /// All 25 rows drawn afresh. The page must be drawable and the buffers of the right lengths.
    pub fn fresh(&self, memory: &[u8], rom: &[u8]) -> Vec<u8> {
        let view = self.view(memory, rom);
        (0..ROWS).flat_map(|row| view.row(row)).collect()
    }

    /// The reading list of a row of the shown page.
    pub fn reading_list(&self, memory: &[u8], row: usize) -> BTreeSet<usize> {
        reading::list(&self.page(memory), row)
    }

    /// The mode that TGS names, whatever a draw would be refused for.
    pub fn mode(&self) -> Option<Mode> {
        Mode::of(self.board.part, self.tgs)
    }

    /// The refusal 7 or 8 that a draw would get from TGS, PAT and ROR alone.
    pub fn page_refusal(&self) -> Option<u8> {
        match self.drawn_mode() {
            None => Some(7),
            Some(_) if self.has_low_origin() => Some(8),
            Some(_) => None,
        }
    }

    /// The mode, or nothing with refusal 7: "TGS bits 7, 6 or 5, or PAT bit 7, not zero", and "7,
    /// with TGS 7 and 6 both set, looks only at TGS 5 and PAT 7". Of the TS9347 it is "as in 40 columns
    /// of the page".
    fn drawn_mode(&self) -> Option<Mode> {
        let other_format = self.tgs / 32 % 2 == 1 || self.pat / 128 == 1;
        self.mode().filter(|_| !other_format)
    }

    /// Refusal 8: "origin YOR below 8".
    fn has_low_origin(&self) -> bool {
        self.ror % 32 < 8
    }

    /// The page that TGS, ROR and DOR show in a memory. A TGS that names no mode is never drawn; its
    /// page counts as one of 40 columns, so that it has an answer too.
    pub fn page<'a>(&self, memory: &'a [u8]) -> Page<'a> {
        Page {
            mode: self.mode().unwrap_or(Mode::Forty),
            board: self.board,
            first: self.first_block(),
            ror: self.ror,
            dor: self.dor,
            memory,
        }
    }

    /// The first of the blocks that hold the page.
    pub fn first_block(&self) -> usize {
        first_block(self.board.part, self.ror, self.dor)
    }

    pub fn view<'a>(&self, memory: &'a [u8], rom: &'a [u8]) -> View<'a> {
        View {
            page: self.page(memory),
            rom,
            mat: self.mat,
            pat: self.pat,
            phase: self.phase,
        }
    }

    /// Draw is checked 1, 5, 7, 6, 8: "6 asks for the length that goes with the mode and is checked
    /// after 7".
    fn draw_refusal(&self, memory: &[u8], rom: &[u8], picture: &[u8]) -> Option<u8> {
        if memory.len() != self.memory_length() {
            return Some(1);
        }
        if rom.len() != self.board.part.rom() {
            return Some(5);
        }
        match self.drawn_mode() {
            None => Some(7),
            Some(mode) if picture.len() != mode.picture() => Some(6),
            Some(_) if self.has_low_origin() => Some(8),
            Some(_) => None,
        }
    }

    /// The checks before the register access: 1, which "compares with the size chosen", then 2, then "10,
    /// any access while busy except" two, which are not refused.
    fn access_refusal<R: Rules>(
        &self,
        rules: &R,
        memory: &[u8],
        address: u8,
        is_exception: bool,
    ) -> Option<u8> {
        if memory.len() != self.memory_length() {
            Some(1)
        } else if address / 16 != 2 {
            Some(2)
        } else if self.busy && !is_exception && rules.refuses_while_busy() {
            Some(10)
        } else {
            None
        }
    }

    /// "Bit 3 asks for execution"; without it the access is accepted as it stands.
    fn execute_if_asked<R: Rules>(&mut self, rules: &R, memory: &mut [u8], address: u8) -> u8 {
        if address / 8 % 2 == 1 {
            self.execute(rules, memory)
        } else {
            0
        }
    }
}
