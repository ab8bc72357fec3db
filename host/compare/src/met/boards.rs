//! What the operations met on each board.

use second::Board;

use super::Met;
use crate::trial::Step;

#[derive(Default)]
pub struct Boards {
    met: [Met; Board::ALL.len()],
}

impl Boards {
    /// Counts an operation for the board that was there before it.
    pub fn look(&mut self, step: &Step) {
        self.met[number_of(step.before.board)].look(step);
    }

    pub fn on(&self, board: Board) -> &Met {
        &self.met[number_of(board)]
    }
}

fn number_of(board: Board) -> usize {
    let number = Board::ALL.iter().position(|other| *other == board);
    number.unwrap_or_else(|| panic!("there is no {board:?}"))
}
