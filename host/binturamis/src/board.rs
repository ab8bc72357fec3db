//! The boards: a part, and the blocks of its private memory.

use crate::part::Part;
use crate::refusal::Refusal;
use crate::size::{BLOCK_BYTES, ROM_BYTES, TS9347_ROM_BYTES};

/// The part that a board has, and how many blocks of private memory. It is chosen at power-up and stays.
///
/// ```
/// use binturamis::{Board, Panel, Part, Refusal, ROM_BYTES};
///
/// let board = Board::new(Part::Ef9345, 8)?;
/// assert_eq!(board, Board::Eight);
/// assert_eq!((board.blocks(), board.memory_bytes()), (8, 8_192));
/// assert_eq!(Board::new(Part::Ef9345, 4), Err(Refusal::WrongBoard));
///
/// let panel = Panel::with_board(board, &[0; ROM_BYTES])?;
/// assert_eq!(panel.memory().len(), 8_192);
///
/// let board = Board::new(Part::Ts9347, 32)?;
/// assert_eq!((board.memory_bytes(), board.rom_bytes()), (32_768, 3_840));
/// # Ok::<(), Refusal>(())
/// ```
#[derive(Clone, Copy, Debug, PartialEq, Eq, PartialOrd, Ord, Hash)]
#[repr(u8)]
pub enum Board {
    /// An EF9345 with 2,048 bytes. No command that stores a whole cell finds all its bytes: KRF and KRL
    /// are refused by 11, and OCT stores.
    Two = 2,
    /// An EF9345 with 8,192 bytes.
    Eight = 8,
    /// An EF9345 with 16,384 bytes: every block that its pointers can name.
    Sixteen = 16,
    /// A TS9347, which has 32,768 bytes: every block that its pointers can name.
    ThirtyTwo = 32,
}

impl Board {
    /// Every board, by rising number of blocks.
    pub const ALL: [Board; 4] = [Board::Two, Board::Eight, Board::Sixteen, Board::ThirtyTwo];

    /// The board of a part with so many blocks, or refusal 12 where the part has none.
    pub fn new(part: Part, blocks: u8) -> Result<Board, Refusal> {
        let mut all = Board::ALL.into_iter();
        all.find(|board| (board.part(), board.blocks()) == (part, blocks))
            .ok_or(Refusal::WrongBoard)
    }

    pub fn part(self) -> Part {
        match self {
            Board::Two | Board::Eight | Board::Sixteen => Part::Ef9345,
            Board::ThirtyTwo => Part::Ts9347,
        }
    }

    /// The number of blocks: 2, 8 or 16 of an EF9345, 32 of a TS9347.
    pub fn blocks(self) -> u8 {
        self as u8
    }

    /// The bytes of the private memory.
    pub fn memory_bytes(self) -> usize {
        BLOCK_BYTES * usize::from(self.blocks())
    }

    /// The bytes of the character ROM that a draw is lent.
    pub fn rom_bytes(self) -> usize {
        match self.part() {
            Part::Ef9345 => ROM_BYTES,
            Part::Ts9347 => TS9347_ROM_BYTES,
        }
    }
}
