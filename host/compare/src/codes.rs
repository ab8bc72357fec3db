//! How the private memory of a random page of 80 columns is filled.

use second::address::{code_block, place};
use second::code::Code;
use second::page::screen_y;
use second::random::Random;
use second::{COLUMNS, POSITIONS, ROWS};

use crate::filling::Shown;

#[derive(Clone, Copy, Debug, PartialEq, Eq)]
pub enum Codes {
    /// Any bytes at all: characters and mosaics, with every attribute.
    AnyBytes,
    /// Words, each with one look, and blanks between them.
    Text,
    /// Mosaics alone.
    Mosaics,
    /// Now a character and now a mosaic, so that the nibbles of a byte mean different things.
    ByTurns,
}

pub const CODES: [Codes; 4] = [Codes::AnyBytes, Codes::Text, Codes::Mosaics, Codes::ByTurns];

impl Codes {
    /// A memory of the board in which such a page is shown, as far as it is fitted.
    pub fn memory(self, random: &mut Random, shown: Shown) -> Vec<u8> {
        let mut memory = random.bytes(shown.board.memory());
        match self {
            Codes::AnyBytes => {}
            Codes::Text => fill(&mut memory, shown, |_| words(random)),
            Codes::Mosaics => fill(&mut memory, shown, |_| line(|_| mosaic(random))),
            Codes::ByTurns => fill(&mut memory, shown, |row| {
                line(|position| match (row + position) % 2 {
                    0 => mosaic(random),
                    _ => character(random),
                })
            }),
        }
        memory
    }
}

type Line = [Code; POSITIONS];

fn line(code: impl FnMut(usize) -> Code) -> Line {
    std::array::from_fn(code)
}

/// Stores the codes that are given for each row of the shown page. The C bytes of even positions are
/// in the first block, those of odd ones in the second, and two nibbles in each byte of the third.
fn fill(memory: &mut [u8], shown: Shown, mut given: impl FnMut(usize) -> Line) {
    for row in 0..ROWS {
        let codes = given(row);
        for x in 0..COLUMNS {
            let (even, odd) = (codes[2 * x], codes[2 * x + 1]);
            let bytes = [even.c, odd.c, 16 * even.nibble + odd.nibble];
            for (number, value) in bytes.into_iter().enumerate() {
                let block = code_block(shown.first_block(), number);
                // A place past the end is not fitted.
                if let Some(byte) = memory.get_mut(place(x, screen_y(shown.ror, row), block)) {
                    *byte = value;
                }
            }
        }
    }
}

fn mosaic(random: &mut Random) -> Code {
    Code {
        c: 0x80 + random.byte() % 0x80,
        nibble: random.byte() % 16,
    }
}

fn character(random: &mut Random) -> Code {
    Code {
        c: random.byte() % 0x80,
        nibble: random.byte() % 16,
    }
}

/// Words of one to nine letters, most of them plain, and a blank after each.
fn words(random: &mut Random) -> Line {
    let (mut left, mut nibble) = (0, 0);
    line(|_| {
        if left == 0 {
            left = 2 + random.below(9);
            let any = random.byte() % 16;
            nibble = random.choice(&[0, 0, 0, 1, 2, 4, 8, any]);
        }
        left -= 1;
        let c = match left {
            0 => 0x20,
            _ => 0x21 + random.below(0x5E) as u8,
        };
        Code { c, nibble }
    })
}
