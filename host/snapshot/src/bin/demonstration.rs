//! Writes the accesses of a demonstration page to standard output, as `snapshot` and `panel` read them:
//! of the page of 40 columns, for an EF9345 or a TS9347, of the one of 80, or of the list of recipes, as it
//! is before it is scrolled and after.

use std::env;
use std::io::{self, Write};
use std::process::ExitCode;

use snapshot::access::to_bytes;
use snapshot::{demonstration, recipes, scroll};

const USAGE: &str = "usage: demonstration 40, demonstration 40 ts9347, demonstration 80, \
                     demonstration list, or demonstration scroll";

fn main() -> ExitCode {
    let words: Vec<String> = env::args().skip(1).collect();
    let page = match words.iter().map(String::as_str).collect::<Vec<_>>()[..] {
        ["40"] => demonstration::page(),
        ["40", "ts9347"] => demonstration::ts9347(),
        ["80"] => recipes::page(),
        ["list"] => scroll::list(),
        ["scroll"] => scroll::scrolled(),
        _ => {
            eprintln!("{USAGE}");
            return ExitCode::from(2);
        }
    };
    match io::stdout().write_all(&to_bytes(&page)) {
        Ok(()) => ExitCode::SUCCESS,
        Err(error) => {
            eprintln!("demonstration: standard output cannot be written: {error}");
            ExitCode::FAILURE
        }
    }
}
