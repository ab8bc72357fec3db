//! The bits of a character of 80 columns, from its slices in G0.

use crate::code::Code;

/// The bit that a pixel of a line shows. "In order: the slice's bit; underline makes it 1 on slice
/// 9; flash with PAT 6 makes it 0 when the phase differs from the negative bit; negative inverts
/// it." The slice is the line, and its bits 0 to 5 are the pixels from the left. PAT 3 means nothing
/// here.
pub fn is_on(code: Code, line: usize, value: u8, pixel: usize, pat: u8, phase: u8) -> bool {
    let mut on = (value >> pixel) & 1 == 1;
    if code.is_underlined() && line == 9 {
        on = true;
    }
    if code.is_flashing() && (pat >> 6) & 1 == 1 && phase != code.negative() {
        on = false;
    }
    if code.negative() == 1 {
        on = !on;
    }
    on
}
