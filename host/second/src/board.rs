//! A board: a part with so many blocks of private memory.

use crate::part::Part;
use crate::BLOCK;

#[derive(Clone, Copy, Debug, PartialEq, Eq)]
pub struct Board {
    pub part: Part,
    pub blocks: usize,
}

impl Board {
    pub const TWO: Board = Board::ef9345(2);
    pub const EIGHT: Board = Board::ef9345(8);
    /// The board of which nothing else is said.
    pub const SIXTEEN: Board = Board::ef9345(16);
    /// The one board of the later part.
    pub const TS9347: Board = Board {
        part: Part::Ts9347,
        blocks: 32,
    };

    pub const ALL: [Board; 4] = [Board::TWO, Board::EIGHT, Board::SIXTEEN, Board::TS9347];

    const fn ef9345(blocks: usize) -> Board {
        Board {
            part: Part::Ef9345,
            blocks,
        }
    }

    /// The board that a power-up asks for, or its refusal: "14, an unknown part, at power-up and before
    /// 12", and 12 "compare[s] with the part's size".
    pub fn named(part: u8, blocks: u8) -> Result<Board, u8> {
        let part = Part::numbered(part).ok_or(14)?;
        let blocks = usize::from(blocks);
        if part.boards().contains(&blocks) {
            Ok(Board { part, blocks })
        } else {
            Err(12)
        }
    }

    /// The numbers that a power-up asks for it by: the part's, and that of its blocks.
    pub fn numbers(self) -> (u8, u8) {
        let blocks = u8::try_from(self.blocks).expect("a board has few blocks");
        (self.part.number(), blocks)
    }

    /// The bytes of its private memory.
    pub const fn memory(self) -> usize {
        BLOCK * self.blocks
    }

    /// Whether it has every block that a pointer of its part can name, so that no command gets 11.
    pub fn is_full(self) -> bool {
        self.blocks == self.part.named_blocks()
    }
}
