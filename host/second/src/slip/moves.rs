//! The wrong rules of the moves: their blocks and their rows.

use crate::address::code_block;
use crate::moves;

use super::Slip;

/// The block of a byte of a move, which may leave the district. The board has every block.
pub fn block(slip: Slip, first: usize, byte: usize) -> usize {
    match slip {
        Slip::MoveLeavesDistrict => (first + byte) % 16,
        _ => code_block(first, byte),
    }
}

pub fn next_y(slip: Slip, y: u8) -> u8 {
    match (slip, y) {
        (Slip::ServiceRowLeft, 0) => 8,
        (Slip::ServiceRowEntered, 31) => 0,
        _ => moves::next_y(y),
    }
}
