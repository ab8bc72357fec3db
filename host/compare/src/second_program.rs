//! The second program as the other of the two sides.

use second::{Answer, Board, Mode, Operation, Processor};

use crate::desk::{Lent, Side};
use crate::report::Report;

impl Side for Processor {
    fn power_up() -> Processor {
        Processor::power_up()
    }

    fn board(&self) -> Board {
        self.board
    }

    fn mode(&self) -> Option<Mode> {
        Processor::mode(self)
    }

    fn operate(&mut self, operation: Operation, lent: Lent) -> Answer {
        match operation {
            Operation::PowerUp { part, blocks } => {
                let (processor, answer) = Processor::power_up_board(part, blocks);
                *self = processor;
                answer
            }
            Operation::Write { address, value } => self.write(lent.memory, address, value),
            Operation::Read { address } => self.read(lent.memory, address),
            Operation::Step => self.step(lent.memory),
            Operation::Turn { phase } => self.turn(lent.memory, phase),
            Operation::Draw => self.draw(lent.memory, lent.rom, lent.picture),
        }
    }

    fn report(&self, answer: Answer) -> Report {
        Report::wanted(answer, self)
    }
}
