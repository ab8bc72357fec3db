//! Writes a character ROM to a file: a demonstration ROM, or that of the texts named.

use std::env;
use std::fs;
use std::process::ExitCode;

use rom::{build, demonstration, narrow, parse, ts9347, Fault};

const HELP: &str = "\
rom OUTPUT           writes the demonstration ROM, 6,400 bytes, to the file OUTPUT
rom --narrow OUTPUT  writes the one whose letters are narrow enough for 80 columns
rom --ts9347 OUTPUT  writes the one for the TS9347, 3,840 bytes
rom OUTPUT TEXT...   writes the ROM of the characters that the texts draw, 6,400 bytes
rom --help           says this

It ends with 1 if a text is wrong or a file cannot be read or written, and with 2
if the command line is wrong.
";

fn main() -> ExitCode {
    let words: Vec<String> = env::args().skip(1).collect();
    if words.iter().any(|word| word == "--help") {
        print!("{HELP}");
        return ExitCode::SUCCESS;
    }
    let (source, output) = match asked(&words) {
        Ok(asked) => asked,
        Err(wrong) => {
            eprint!("rom: {wrong}\n{HELP}");
            return ExitCode::from(2);
        }
    };
    match written(source, output) {
        Ok(()) => ExitCode::SUCCESS,
        Err(message) => {
            eprintln!("rom: {message}");
            ExitCode::FAILURE
        }
    }
}

/// What the ROM is made of.
enum Source<'a> {
    Demonstration,
    Narrow,
    Ts9347,
    Texts(&'a [String]),
}

impl Source<'_> {
    /// What a flag asks for. With one of these there are no texts.
    fn of_flag(flag: &str) -> Option<Source<'static>> {
        match flag {
            "--narrow" => Some(Source::Narrow),
            "--ts9347" => Some(Source::Ts9347),
            _ => None,
        }
    }
}

/// The source and the file to write that a command line asks for, or what is wrong with it.
fn asked(words: &[String]) -> Result<(Source<'_>, &str), String> {
    let first = words.first().map_or("", String::as_str);
    let of_flag = Source::of_flag(first);
    let files = &words[usize::from(of_flag.is_some())..];
    let Some((output, texts)) = files.split_first() else {
        return Err("the file to write is not named".to_string());
    };
    if let Some(flag) = files.iter().find(|word| word.starts_with('-')) {
        return Err(format!("there is no flag {flag}"));
    }
    match (of_flag, texts) {
        (Some(source), []) => Ok((source, output)),
        (Some(_), _) => Err(format!("{first} takes no texts")),
        (None, []) => Ok((Source::Demonstration, output)),
        (None, texts) => Ok((Source::Texts(texts), output)),
    }
}

/// Builds before it writes, so that a fault leaves the file as it was.
fn written(source: Source, output: &str) -> Result<(), String> {
    let rom = match source {
        Source::Demonstration => built(demonstration())?,
        Source::Narrow => built(narrow())?,
        Source::Ts9347 => built(ts9347::demonstration())?,
        Source::Texts(texts) => drawn(texts)?,
    };
    fs::write(output, rom).map_err(|error| format!("{output} cannot be written: {error}"))
}

/// The bytes of a ROM, without the characters that it was built from.
fn built<const BYTES: usize, T>(rom: Result<([u8; BYTES], T), Fault>) -> Result<Vec<u8>, String> {
    let (rom, _) = rom.map_err(|fault| fault.to_string())?;
    Ok(rom.to_vec())
}

/// The ROM of the characters of all the texts together.
fn drawn(texts: &[String]) -> Result<Vec<u8>, String> {
    let mut characters = Vec::new();
    for file in texts {
        let text =
            fs::read_to_string(file).map_err(|error| format!("{file} cannot be read: {error}"))?;
        characters.extend(parse(file, &text).map_err(|fault| fault.to_string())?);
    }
    let rom = build(&characters).map_err(|fault| fault.to_string())?;
    Ok(rom.to_vec())
}
