//! What the terminal can show: how wide it is, and whether it has colour.

use std::env;
use std::fs::File;
use std::io::{self, IsTerminal};
use std::process::Command;

/// What is asked for on the command line, if anything.
#[derive(Clone, Copy, Debug, PartialEq, Eq)]
pub enum Asked {
    Plain,
    Colour,
}

/// Whether to write escape codes to standard output.
pub fn has_colour(asked: Option<Asked>) -> bool {
    match asked {
        Some(asked) => asked == Asked::Colour,
        None => {
            let named = |name: &str| env::var(name).unwrap_or_default();
            io::stdout().is_terminal() && allows_colour(&named("TERM"), &named("NO_COLOR"))
        }
    }
}

/// Whether a terminal has colour by its type, and no wish against it is set.
pub fn allows_colour(term: &str, no_color: &str) -> bool {
    !["", "dumb"].contains(&term) && no_color.is_empty()
}

/// The columns of the terminal, if they are known: COLUMNS, or what `stty` says where standard output
/// is a terminal.
pub fn width() -> Option<usize> {
    let columns = env::var("COLUMNS").ok();
    let told = || io::stdout().is_terminal().then(stty).flatten();
    columns.and_then(|columns| positive(&columns)).or_else(told)
}

/// `stty size` prints the rows and the columns of the terminal that is its standard input.
fn stty() -> Option<usize> {
    let terminal = File::open("/dev/tty").ok()?;
    let mut stty = Command::new("stty");
    let told = stty.arg("size").stdin(terminal).output().ok()?;
    of_size(&String::from_utf8_lossy(&told.stdout))
}

/// The columns in what `stty size` prints; it prints 0 where it does not know.
pub fn of_size(size: &str) -> Option<usize> {
    positive(size.split_whitespace().nth(1)?)
}

fn positive(number: &str) -> Option<usize> {
    number.trim().parse().ok().filter(|number| *number > 0)
}
