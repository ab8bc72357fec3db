//! A processor with the buffers that are lent to it, of which any length can be lent. The library's
//! and the second program's stand at desks of the same kind, so that both are asked the same.

use second::{Answer, Board, Mode, Operation};

use crate::asked::Asked;
use crate::lengths::Lengths;
use crate::report::Report;

/// A processor, of the library or of the second program.
pub trait Side {
    fn power_up() -> Self;

    /// Its part and its blocks.
    fn board(&self) -> Board;

    /// The mode that its TGS names.
    fn mode(&self) -> Option<Mode>;

    fn operate(&mut self, operation: Operation, lent: Lent) -> Answer;

    /// An answer with the whole state after it.
    fn report(&self, answer: Answer) -> Report;
}

/// The parts of the buffers that an operation is lent.
pub struct Lent<'a> {
    pub memory: &'a mut [u8],
    pub rom: &'a [u8],
    pub picture: &'a mut [u8],
}

#[derive(Clone)]
pub struct Desk<S> {
    pub processor: S,
    pub memory: Vec<u8>,
    pub rom: Vec<u8>,
    pub picture: Vec<u8>,
}

impl<S: Side> Desk<S> {
    /// Power-up with whole buffers, and a picture of zeros.
    pub fn begin(memory: Vec<u8>, rom: Vec<u8>) -> Desk<S> {
        Desk {
            processor: S::power_up(),
            memory,
            rom,
            picture: vec![0; Lengths::WHOLE.picture],
        }
    }

    /// The same with the processor of a board.
    pub fn begin_board(board: Board, memory: Vec<u8>, rom: Vec<u8>) -> Desk<S> {
        let mut desk = Desk::begin(memory, rom);
        let report = desk.apply(Asked::power_up(board));
        assert_eq!(report.number, 0, "{board:?} is powered up");
        desk
    }

    pub fn apply(&mut self, asked: Asked) -> Report {
        let lengths = asked.lengths(self.processor.mode(), self.processor.board());
        let lent = Lent {
            memory: &mut self.memory[..lengths.memory],
            rom: &self.rom[..lengths.rom],
            picture: &mut self.picture[..lengths.picture],
        };
        let answer = self.processor.operate(asked.operation, lent);
        self.processor.report(answer)
    }
}
