//! Runs the built program `panel` on standard input, under the kit's loader, and prints what it
//! prints.

use std::io::{self, Read, Write};

use panel::program::Program;

fn main() -> Result<(), String> {
    let program = Program::built("panel")?;
    let mut bytes = Vec::new();
    let read = io::stdin().read_to_end(&mut bytes);
    read.map_err(|error| format!("standard input cannot be read: {error}"))?;
    let output = program.written(bytes)?;
    let printed = io::stdout().write_all(&output);
    printed.map_err(|error| format!("standard output cannot be written: {error}"))
}
