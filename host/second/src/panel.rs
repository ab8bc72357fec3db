//! The program `panel` as a function from standard input to what it prints.

use crate::bench::Bench;
use crate::mode::Mode;

/// "Starts from power-up with zero memory, ROM and picture, reads byte pairs (address, value) as
/// writes, draws, and prints two lines". Lines are counted from 0. "The program `panel` stays at 40
/// columns": its picture has that length, and in 80 columns the draw gets 6.
pub fn panel(input: &[u8]) -> String {
    let mut bench = Bench::power_up();
    let mut last = 0;
    for pair in input.chunks_exact(2) {
        last = bench.write(pair[0], pair[1]).number;
    }
    let draw = bench.draw();
    let line = 10 * Mode::Forty.line();
    let shown: Vec<String> = bench.picture[line..line + 8]
        .iter()
        .map(|byte| format!("{byte:02X}"))
        .collect();
    format!(
        "{} {} {}\n{}\n",
        last,
        draw.number,
        draw.value,
        shown.join(" ")
    )
}
