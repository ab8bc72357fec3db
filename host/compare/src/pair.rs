//! The library and the second program side by side: both do each operation, and then the answer,
//! the state, the memory and the picture are compared whole.

use second::{Board, Mode};

use crate::asked::Asked;
use crate::desk::Desk;
use crate::report::Report;

pub struct Pair {
    pub library: Desk<binturamis::Processor>,
    pub second: Desk<second::Processor>,
    /// What a difference is told with: the seed, and the number of operations done.
    seed: u64,
    done: u64,
}

impl Pair {
    /// Power-up of both with the same whole buffers, and pictures of zeros.
    pub fn begin(seed: u64, memory: Vec<u8>, rom: Vec<u8>) -> Pair {
        Pair::of(
            seed,
            Desk::begin(memory.clone(), rom.clone()),
            Desk::begin(memory, rom),
        )
    }

    /// The same with the processors of a board.
    pub fn begin_board(seed: u64, board: Board, memory: Vec<u8>, rom: Vec<u8>) -> Pair {
        Pair::of(
            seed,
            Desk::begin_board(board, memory.clone(), rom.clone()),
            Desk::begin_board(board, memory, rom),
        )
    }

    /// Any two desks, which must hold the same.
    pub fn of(
        seed: u64,
        library: Desk<binturamis::Processor>,
        second: Desk<second::Processor>,
    ) -> Pair {
        Pair {
            library,
            second,
            seed,
            done: 0,
        }
    }

    /// One operation. Fails where the two answer or leave something else.
    pub fn apply(&mut self, asked: Asked) -> Report {
        self.done += 1;
        let (report, wanted) = (self.library.apply(asked), self.second.apply(asked));
        if report != wanted {
            let differs = format!("\nanswered {report:?}\nwanted   {wanted:?}");
            self.fail(asked, &differs);
        }
        if self.library.memory != self.second.memory {
            let at = first(&self.library.memory, &self.second.memory);
            self.fail(asked, &format!("byte {at} of the memory"));
        }
        if self.library.picture != self.second.picture {
            let at = first(&self.library.picture, &self.second.picture);
            let mode = self.second.processor.mode().unwrap_or(Mode::Forty);
            self.fail(asked, &place_in_picture(mode, at));
        }
        report
    }

    fn fail(&self, asked: Asked, differs: &str) -> ! {
        let (seed, done) = (self.seed, self.done);
        panic!("seed {seed}, operation {done} ({asked:?}): {differs}");
    }
}

/// The first byte in which two buffers differ.
fn first(left: &[u8], right: &[u8]) -> usize {
    let at = left.iter().zip(right).position(|(l, r)| l != r);
    at.unwrap_or(left.len().min(right.len()))
}

fn place_in_picture(mode: Mode, at: usize) -> String {
    let (row, line) = (at / mode.row(), at % mode.row() / mode.line());
    let byte = at % mode.line();
    format!("picture ({mode:?}), row {row}, line {line}, byte {byte} of the line")
}
