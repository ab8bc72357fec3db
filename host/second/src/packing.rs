//! The packed attribute nibbles: one byte of the third block holds those of two positions.

/// The nibble of a position: "the high one for the even position, the low one for the odd".
pub fn nibble(packed: u8, odd: bool) -> u8 {
    if odd {
        packed % 16
    } else {
        packed / 16
    }
}

/// The byte after a write by KRL: "the nibble is taken from the half of R3 in which it will stand
/// and the other nibble stays".
pub fn with_nibble(packed: u8, r3: u8, odd: bool) -> u8 {
    if odd {
        packed / 16 * 16 + r3 % 16
    } else {
        r3 / 16 * 16 + packed % 16
    }
}

/// R3 after a read by KRL: "the nibble in both halves".
pub fn in_both_halves(nibble: u8) -> u8 {
    16 * nibble + nibble
}
