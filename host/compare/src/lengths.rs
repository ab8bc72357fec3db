//! The lengths in which the buffers are lent: the right ones of either mode and of each board, and ones
//! that are refused.

use second::random::Random;
use second::{Board, Mode, Part};

/// The bytes that each buffer has past its right length.
pub const SPARE: usize = 16;

#[derive(Clone, Copy, Debug, PartialEq, Eq)]
pub struct Lengths {
    pub memory: usize,
    pub rom: usize,
    pub picture: usize,
}

impl Lengths {
    /// The whole buffers. The memory and the ROM are long enough for every board, and the picture for 80
    /// columns.
    pub const WHOLE: Lengths = Lengths {
        memory: Board::TS9347.memory() + SPARE,
        rom: Part::Ef9345.rom() + SPARE,
        picture: Mode::Eighty.picture() + SPARE,
    };

    /// The right ones of a mode and of a board. Where TGS names no mode a draw is refused whatever the
    /// picture.
    pub fn right(mode: Option<Mode>, board: Board) -> Lengths {
        Lengths {
            memory: board.memory(),
            rom: board.part.rom(),
            picture: mode.unwrap_or(Mode::Forty).picture(),
        }
    }

    /// Each length right or wrong by itself, so that the order of the checks shows.
    pub fn any(random: &mut Random, board: Board) -> Lengths {
        Lengths {
            memory: any_memory(random, board),
            rom: any_rom(random, board.part),
            ..Lengths::any_picture(random, board)
        }
    }

    /// Right ones but for the picture's, which most often is right for one of the modes.
    pub fn any_picture(random: &mut Random, board: Board) -> Lengths {
        let mode = random.choice(&[Mode::Forty, Mode::Eighty]);
        Lengths {
            picture: right_or_wrong(random, mode.picture(), 4),
            ..Lengths::right(Some(mode), board)
        }
    }
}

/// The board's every second time; else that of any of the four boards, or one that is wrong.
fn any_memory(random: &mut Random, board: Board) -> usize {
    let of_a_board = random.choice(&Board::ALL).memory();
    match random.below(4) {
        0 => of_a_board,
        1 => wrong(random, board.memory()),
        _ => board.memory(),
    }
}

/// The part's every second time; else that of the other part, or one that is wrong.
fn any_rom(random: &mut Random, part: Part) -> usize {
    let other = match part {
        Part::Ef9345 => Part::Ts9347,
        Part::Ts9347 => Part::Ef9345,
    };
    match random.below(6) {
        0 => other.rom(),
        1 | 2 => wrong(random, part.rom()),
        _ => part.rom(),
    }
}

/// Wrong one time in so many.
fn right_or_wrong(random: &mut Random, right: usize, times: usize) -> usize {
    if random.one_in(times) {
        wrong(random, right)
    } else {
        right
    }
}

/// Nothing, one byte short or long, more than that, or anything shorter.
fn wrong(random: &mut Random, right: usize) -> usize {
    let shorter = random.below(right);
    random.choice(&[0, right - 1, right + 1, right + SPARE, shorter])
}
