//! The bits of a mosaic of 80 columns, from its ten windows.

use crate::code::Code;

/// The window of a pixel by its number in reading order: "each three pixels wide and two lines high,
/// two side by side, five down".
pub fn window(line: usize, pixel: usize) -> usize {
    2 * (line / 2) + pixel / 3
}

/// The bit that a pixel of a line shows. "Their bits in reading order are C0 to C6 and then nibble
/// bits 1, 2, 3."
pub fn is_on(code: Code, line: usize, pixel: usize) -> bool {
    let bits = [
        code.c & 1,
        code.c >> 1 & 1,
        code.c >> 2 & 1,
        code.c >> 3 & 1,
        code.c >> 4 & 1,
        code.c >> 5 & 1,
        code.c >> 6 & 1,
        code.nibble >> 1 & 1,
        code.nibble >> 2 & 1,
        code.nibble >> 3 & 1,
    ];
    bits[window(line, pixel)] == 1
}
