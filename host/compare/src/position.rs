//! One character position of a move: what a step is about to move.

use second::address::{code_block, place};
use second::command::{Command, Move};
use second::pointer::Pointer;
use second::Processor;

#[derive(Clone, Copy, Debug, PartialEq, Eq)]
pub struct Position {
    pub run: Move,
    pub source: Pointer,
    pub destination: Pointer,
}

impl Position {
    /// The position that the next step moves, if a move runs.
    pub fn next(processor: &Processor) -> Option<Position> {
        let (part, registers) = (processor.board.part, &processor.registers);
        match Command::listed(part, registers[0]) {
            Some(Command::Move(run)) if processor.busy => Some(Position {
                run,
                source: Pointer::of(part, registers, run.source),
                destination: Pointer::of(part, registers, run.destination()),
            }),
            _ => None,
        }
    }

    /// The places of its bytes at a pointer, in their order.
    fn places(self, at: Pointer) -> Vec<usize> {
        let place_of = |byte| place(at.x, at.y, code_block(at.z, byte));
        (0..self.run.bytes).map(place_of).collect()
    }

    pub fn sources(self) -> Vec<usize> {
        self.places(self.source)
    }

    pub fn destinations(self) -> Vec<usize> {
        self.places(self.destination)
    }

    /// Whether a byte of it is read where an earlier byte of it has been stored, and is another than it was
    /// in the memory from before the step.
    pub fn sees_itself(self, memory: &[u8]) -> bool {
        let (sources, destinations) = (self.sources(), self.destinations());
        let mut now = memory.to_vec();
        let mut sees = false;
        for (from, to) in sources.into_iter().zip(destinations) {
            sees |= now[from] != memory[from];
            now[to] = now[from];
        }
        sees
    }

    /// Whether the blocks of its bytes go round inside the district, at the source and at the destination.
    pub fn wraps(self) -> [bool; 2] {
        [self.source, self.destination].map(|at| at.z % 4 + self.run.bytes > 4)
    }
}
