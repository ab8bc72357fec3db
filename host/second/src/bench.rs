//! A bench for trials: a processor with the private memory, the ROM and the picture that are lent
//! to it.

use crate::cell::Cell;
use crate::code::Code;
use crate::mode::Mode;
use crate::operation::Operation;
use crate::packing::in_both_halves;
use crate::part::Part;
use crate::picture::pixel;
use crate::pointer::Pointer;
use crate::processor::{Answer, Processor};
use crate::rules::Rules;
use crate::{Board, LINES};

#[derive(Clone, Debug, PartialEq, Eq)]
pub struct Bench {
    pub processor: Processor,
    pub memory: Vec<u8>,
    pub rom: Vec<u8>,
    pub picture: Vec<u8>,
}

impl Bench {
    /// Power-up with zero memory, ROM and picture, which is of 40 columns.
    pub fn power_up() -> Self {
        Bench::power_up_board(Board::SIXTEEN)
    }

    /// Power-up of a board, with zero memory and ROM of its lengths.
    pub fn power_up_board(board: Board) -> Self {
        let (part, blocks) = board.numbers();
        let (processor, answer) = Processor::power_up_board(part, blocks);
        assert_eq!(answer.number, 0, "{board:?} is powered up");
        Bench {
            processor,
            memory: vec![0; board.memory()],
            rom: vec![0; board.part.rom()],
            picture: vec![0; Mode::Forty.picture()],
        }
    }

    /// A bench whose page can be drawn: origin 8 and first block 0, everything else as at power-up.
    pub fn drawable() -> Self {
        Bench::drawable_board(Board::SIXTEEN)
    }

    /// The same of a board.
    pub fn drawable_board(board: Board) -> Self {
        let mut bench = Bench::power_up_board(board);
        bench.indirect(7, 8);
        bench
    }

    /// The same in 80 columns, with a picture of their length.
    pub fn drawable_eighty() -> Self {
        let mut bench = Bench::drawable();
        bench.indirect(1, Mode::Eighty.tgs());
        bench.fit_picture(0);
        bench
    }

    pub fn write(&mut self, address: u8, value: u8) -> Answer {
        self.processor.write(&mut self.memory, address, value)
    }

    pub fn read(&mut self, address: u8) -> Answer {
        self.processor.read(&mut self.memory, address)
    }

    pub fn turn(&mut self, phase: u8) -> Answer {
        self.processor.turn(&self.memory, phase)
    }

    pub fn step(&mut self) -> Answer {
        self.processor.step(&mut self.memory)
    }

    pub fn draw(&mut self) -> Answer {
        self.processor
            .draw(&self.memory, &self.rom, &mut self.picture)
    }

    /// Lends another picture from here on, full of one byte, where the kept one has not the length
    /// that goes with the mode. The mode has changed since that was drawn, so that every row must be
    /// marked.
    pub fn fit_picture(&mut self, byte: u8) {
        let kept = self.picture.len();
        let length = self.processor.mode().map_or(kept, Mode::picture);
        if length != kept {
            self.picture = vec![byte; length];
        }
    }

    /// One operation of a sequence under given rules. A draw is lent a picture of the right length.
    pub fn apply_with<R: Rules>(&mut self, rules: &R, operation: Operation) -> Answer {
        match operation {
            Operation::PowerUp { part, blocks } => self.power_up_again(part, blocks),
            Operation::Write { address, value } => {
                self.processor
                    .write_with(rules, &mut self.memory, address, value)
            }
            Operation::Read { address } => {
                self.processor.read_with(rules, &mut self.memory, address)
            }
            Operation::Step => self.processor.step_with(rules, &mut self.memory),
            Operation::Turn { phase } => self.processor.turn_with(rules, &self.memory, phase),
            Operation::Draw => {
                self.fit_picture(0xEE);
                self.processor
                    .draw_with(rules, &self.memory, &self.rom, &mut self.picture)
            }
        }
    }

    /// Power-up of another board, or of the same: the memory and the ROM that are lent from here on begin
    /// with the bytes of those before, and have zeros where they are longer.
    fn power_up_again(&mut self, part: u8, blocks: u8) -> Answer {
        let (processor, answer) = Processor::power_up_board(part, blocks);
        self.memory.resize(processor.memory_length(), 0);
        self.rom.resize(processor.board.part.rom(), 0);
        self.processor = processor;
        answer
    }

    fn part(&self) -> Part {
        self.processor.board.part
    }

    /// IND r with a value.
    pub fn indirect(&mut self, r: u8, value: u8) -> Answer {
        self.write(0x21, value);
        self.write(0x28, 0x80 + r)
    }

    /// KRF of a cell at X, Y and first block Z through the main pointer.
    pub fn store_cell(&mut self, pointer: Pointer, cell: Cell) -> Answer {
        let (down, across) = pointer.main_registers(self.part());
        self.write(0x26, down);
        self.write(0x27, across);
        self.write(0x20, 0x00);
        self.write(0x22, cell.b);
        self.write(0x23, cell.a);
        self.write(0x29, cell.c)
    }

    /// KRL of a 12-bit code at X, Y and block Z, which is odd for an odd position.
    pub fn store_code(&mut self, pointer: Pointer, code: Code) -> Answer {
        let (down, across) = pointer.main_registers(self.part());
        self.write(0x26, down);
        self.write(0x27, across);
        self.write(0x20, 0x50);
        self.write(0x23, in_both_halves(code.nibble));
        self.write(0x29, code.c)
    }

    /// OCT of one byte at X, Y and block Z through the main pointer.
    pub fn store_byte(&mut self, pointer: Pointer, value: u8) -> Answer {
        let (down, across) = pointer.main_registers(self.part());
        self.write(0x26, down);
        self.write(0x27, across);
        self.write(0x20, 0x30);
        self.write(0x29, value)
    }

    /// R4 to R7 so that the two pointers are these.
    pub fn point(&mut self, main: Pointer, auxiliary: Pointer) {
        let (r6, r7) = main.main_registers(self.part());
        let (r4, r5, z3) = auxiliary.auxiliary_registers(self.part());
        let z3 = if z3 == Some(true) { 0x40 } else { 0 };
        for (address, value) in [(0x24, r4), (0x25, r5), (0x26, r6 + z3), (0x27, r7)] {
            self.write(address, value);
        }
    }

    /// Ten user slices of a character in a block, from slice 0.
    pub fn store_slices(&mut self, character: u8, block: usize, slices: [u8; LINES]) {
        for (slice, value) in slices.into_iter().enumerate() {
            let pointer = Pointer {
                x: 4 * slice + usize::from(character % 4),
                y: usize::from(character / 4 % 32),
                z: block,
            };
            self.store_byte(pointer, value);
        }
    }

    /// The eight pixels of one line of a cell in the kept picture of 40 columns, from the left.
    pub fn pixels(&self, row: usize, column: usize, line: usize) -> [u8; 8] {
        let (down, left) = (10 * row + line, 8 * column);
        let mut pixels = [0; 8];
        for (across, shown) in pixels.iter_mut().enumerate() {
            *shown = pixel(Mode::Forty, &self.picture, down, left + across);
        }
        pixels
    }

    /// The six pixels of one line of a cell in the kept picture of 80 columns, from the left.
    pub fn narrow_pixels(&self, row: usize, position: usize, line: usize) -> [u8; 6] {
        let (down, left) = (10 * row + line, 6 * position);
        let mut pixels = [0; 6];
        for (across, shown) in pixels.iter_mut().enumerate() {
            *shown = pixel(Mode::Eighty, &self.picture, down, left + across);
        }
        pixels
    }
}
