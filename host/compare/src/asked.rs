//! An operation as it is asked for.

use second::{Board, Mode, Operation};

use crate::lengths::Lengths;

/// An operation, and what is lent to it.
#[derive(Clone, Copy, Debug, PartialEq, Eq)]
pub struct Asked {
    pub operation: Operation,
    /// The lengths of the buffers, or none for the right ones of the mode and the board at the time.
    lengths: Option<Lengths>,
}

impl Asked {
    /// With buffers of the right lengths.
    pub fn right(operation: Operation) -> Asked {
        Asked {
            operation,
            lengths: None,
        }
    }

    /// Power-up of a board.
    pub fn power_up(board: Board) -> Asked {
        let (part, blocks) = board.numbers();
        Asked::right(Operation::PowerUp { part, blocks })
    }

    /// With buffers of these lengths.
    pub fn with(operation: Operation, lengths: Lengths) -> Asked {
        Asked {
            operation,
            lengths: Some(lengths),
        }
    }

    /// The lengths that are lent in a mode and to a board.
    pub fn lengths(self, mode: Option<Mode>, board: Board) -> Lengths {
        self.lengths.unwrap_or_else(|| Lengths::right(mode, board))
    }
}
