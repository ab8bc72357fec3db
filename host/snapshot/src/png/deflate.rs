//! Deflate: one block with the fixed Huffman codes.

use super::bits::Bits;
use super::matches::{found, Part};

/// The length that each code from 257 on begins with; the extra bits go up to the next.
const LENGTHS: [u32; 29] = [
    3, 4, 5, 6, 7, 8, 9, 10, 11, 13, 15, 17, 19, 23, 27, 31, 35, 43, 51, 59, 67, 83, 99, 115, 131,
    163, 195, 227, 258,
];
/// The distance that each code begins with.
const DISTANCES: [u32; 30] = [
    1, 2, 3, 4, 5, 7, 9, 13, 17, 25, 33, 49, 65, 97, 129, 193, 257, 385, 513, 769, 1025, 1537,
    2049, 3073, 4097, 6145, 8193, 12289, 16385, 24577,
];
const END: u32 = 256;

pub fn deflate(content: &[u8]) -> Vec<u8> {
    let mut bits = Bits::default();
    // The last block, of type 1.
    bits.number(1, 1);
    bits.number(1, 2);
    for part in found(content) {
        match part {
            Part::Byte(byte) => symbol(u32::from(byte), &mut bits),
            Part::Copy { length, distance } => copy(length, distance, &mut bits),
        }
    }
    symbol(END, &mut bits);
    bits.bytes()
}

/// A byte, the end or the code of a length, by the fixed code.
fn symbol(symbol: u32, bits: &mut Bits) {
    match symbol {
        0..=143 => bits.code(0x30 + symbol, 8),
        144..=255 => bits.code(0x190 + symbol - 144, 9),
        256..=279 => bits.code(symbol - 256, 7),
        _ => bits.code(0xC0 + symbol - 280, 8),
    }
}

fn copy(length: usize, distance: usize, bits: &mut Bits) {
    let (code, rest) = begun(&LENGTHS, length as u32);
    symbol(257 + code, bits);
    bits.number(rest, length_extra(code));
    let (code, rest) = begun(&DISTANCES, distance as u32);
    bits.code(code, 5);
    bits.number(rest, distance_extra(code));
}

/// The last code that begins at or below a number, and how far the number is from there.
fn begun(beginnings: &[u32], number: u32) -> (u32, u32) {
    let after = beginnings.partition_point(|beginning| *beginning <= number);
    (after as u32 - 1, number - beginnings[after - 1])
}

/// The extra bits of a length: none at first and for 258, then one more every four codes.
fn length_extra(code: u32) -> u32 {
    match code {
        28 => 0,
        code => (code / 4).saturating_sub(1),
    }
}

/// The extra bits of a distance: none at first, then one more every two codes.
fn distance_extra(code: u32) -> u32 {
    (code / 2).saturating_sub(1)
}
