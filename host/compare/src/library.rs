//! The library as one of the two sides, through its Rust interface.

use binturamis::Processor;
use second::{Answer, Board, Mode, Operation, Part};

use crate::desk::{Lent, Side};
use crate::report::Report;

impl Side for Processor {
    fn power_up() -> Processor {
        Processor::power_up()
    }

    fn board(&self) -> Board {
        let state = self.state();
        let part = Part::numbered(state.part);
        Board {
            part: part.unwrap_or_else(|| panic!("the part is {}", state.part)),
            blocks: usize::from(state.blocks),
        }
    }

    fn mode(&self) -> Option<Mode> {
        Mode::of(self.board().part, self.state().tgs)
    }

    fn operate(&mut self, operation: Operation, lent: Lent) -> Answer {
        match operation {
            Operation::PowerUp { part, blocks } => match binturamis::power_up(self, part, blocks) {
                Ok(()) => answer(0, 0),
                Err(refusal) => answer(refusal.number(), 0),
            },
            Operation::Write { address, value } => {
                match binturamis::write(self, lent.memory, address, value) {
                    Ok(()) => answer(0, 0),
                    Err(refusal) => answer(refusal.number(), 0),
                }
            }
            Operation::Read { address } => match binturamis::read(self, lent.memory, address) {
                Ok(value) => answer(0, value),
                Err(refused) => answer(refused.refusal().number(), refused.value().unwrap_or(0)),
            },
            Operation::Step => match binturamis::step(self, lent.memory) {
                Ok(()) => answer(0, 0),
                Err(refusal) => answer(refusal.number(), 0),
            },
            Operation::Turn { phase } => match binturamis::turn(self, lent.memory, phase) {
                Ok(()) => answer(0, 0),
                Err(refusal) => answer(refusal.number(), 0),
            },
            Operation::Draw => draw(self, lent),
        }
    }

    fn report(&self, answer: Answer) -> Report {
        Report::told(answer, &self.state_bytes())
    }
}

/// A draw. The rows that it tells are those that were marked, as many as it answered.
fn draw(processor: &mut Processor, lent: Lent) -> Answer {
    let marks = processor.state().marks;
    match binturamis::draw(processor, lent.memory, lent.rom, lent.picture) {
        Ok(redrawn) => {
            assert_eq!(redrawn.rows().count(), usize::from(redrawn.count()));
            for (row, mark) in marks.into_iter().enumerate() {
                assert_eq!(redrawn.has(row), mark, "row {row}");
            }
            answer(0, redrawn.count())
        }
        Err(refusal) => answer(refusal.number(), 0),
    }
}

fn answer(number: u8, value: u8) -> Answer {
    Answer { number, value }
}
