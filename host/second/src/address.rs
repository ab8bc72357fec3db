//! Where a byte is kept: the place in private memory, or in the ROM, of an X, a Y and a block.

/// "The address answer is one of three: illegal; legal and not fitted; legal and fitted, with the
/// place."
#[derive(Clone, Copy, Debug, PartialEq, Eq)]
pub enum Address {
    Illegal,
    NotFitted,
    Fitted(usize),
}

/// The answer for an X, a Y and a block on a board of so many blocks.
pub fn address(x: usize, y: usize, z: usize, blocks: usize) -> Address {
    if !legal(x, y) {
        Address::Illegal
    } else if !fitted(z, blocks) {
        Address::NotFitted
    } else {
        Address::Fitted(place(x, y, z))
    }
}

impl Address {
    /// The place, where there is one to read or to store to.
    pub fn fitted(self) -> Option<usize> {
        match self {
            Address::Fitted(place) => Some(place),
            Address::Illegal | Address::NotFitted => None,
        }
    }

    /// The byte that a drawing takes: "the slice is 0 and no byte is read" where its Y is not legal,
    /// and "Drawing takes a byte that is not fitted as 0".
    pub fn drawn(self, memory: &[u8]) -> u8 {
        match self {
            Address::Fitted(place) => memory[place],
            Address::Illegal | Address::NotFitted => 0,
        }
    }
}

/// "Legal: X 0..39, Y 0 or 8..31". A block is as wide as its part's pointers have it and so is always
/// legal.
pub fn legal(x: usize, y: usize) -> bool {
    x <= 39 && (y == 0 || (8..=31).contains(&y))
}

/// "Fitted: Z below the number of blocks; there are no mirrors."
pub fn fitted(z: usize, blocks: usize) -> bool {
    z < blocks
}

/// The page's three rules for the place of a legal X, Y and Z.
pub fn place(x: usize, y: usize, z: usize) -> usize {
    if x < 32 {
        1024 * z + 32 * y + x
    } else if y == 0 {
        1024 * z + x
    } else {
        1024 * z + 8 * y + x - 32
    }
}

/// The block of byte 0, 1 or 2 of a code whose first block is `first`: "counted modulo 4 inside the
/// district of four blocks".
pub fn code_block(first: usize, byte: usize) -> usize {
    let district = first / 4;
    4 * district + (first + byte) % 4
}

/// Where a user slice is on a board of so many blocks: "at Y = C bits 6..2, X = 4·NT + C bits 1..0".
/// Bit 7 of the character is ignored.
pub fn slice_address(character: u8, slice: usize, block: usize, blocks: usize) -> Address {
    let y = usize::from(character) / 4 % 32;
    let x = 4 * slice + usize::from(character) % 4;
    address(x, y, block, blocks)
}

/// The place in the ROM of a slice: "1280·set + 10·(C modulo 128) + slice".
pub fn rom_place(set: usize, character: u8, slice: usize) -> usize {
    1280 * set + 10 * (usize::from(character) % 128) + slice
}
