//! The command line of `snapshot`.

use std::ffi::{OsStr, OsString};
use std::path::PathBuf;

use binturamis::{Board, Part, Refusal};

use crate::panel::STEPS;
use crate::terminal::Asked;

pub const HELP: &str = "\
snapshot ACCESSES  shows the page that recorded register accesses draw

ACCESSES is a file of byte pairs, an address and a value, which are written one
after the other from power-up; - is standard input. An odd last byte is ignored.

  --rom FILE    the character ROM, 6,400 bytes, or 3,840 of a TS9347; else the
                demonstration ROM of the part, with narrow letters for a page of
                80 columns
  --png FILE    writes the picture as a PNG too
  --phase 0|1   the phase of what flashes; else 0
  --steps N     the steps that a move may make, after the access that starts it and
                before the next; else 40, within which a move with a stop ends
  --part PART   the display processor, ef9345 or ts9347; else ef9345
  --blocks N    the blocks of its private memory: 2, 8 or 16 of an EF9345, else 16;
                32 of a TS9347, which has no others
  --plain       without colour, --colour with it; else as the terminal has it
  --help        says this

The picture has 320 by 250 pixels, or 480 by 250 where TGS asks an EF9345 for 80
columns. It is fitted to the terminal: COLUMNS is its width, or what stty says;
where neither is known every pixel is shown. It ends with 1 if a file cannot be
read or written or a ROM is wrong, 2 if the command line is wrong, and 3 if the
draw is refused. Refused accesses are told and do not stop it. One that is refused
since a move still runs is told with the access that started the move; a move that
still runs at the end is told too.
";

/// Where the accesses come from.
#[derive(Clone, Debug, PartialEq, Eq)]
pub enum Source {
    StandardInput,
    File(PathBuf),
}

/// What is asked for.
#[derive(Clone, Debug, PartialEq, Eq)]
pub struct Arguments {
    pub accesses: Source,
    pub rom: Option<PathBuf>,
    pub png: Option<PathBuf>,
    pub phase: u8,
    /// The steps that a move makes at most.
    pub steps: usize,
    pub board: Board,
    pub asked: Option<Asked>,
}

/// A right command line.
#[derive(Clone, Debug, PartialEq, Eq)]
pub enum Command {
    Help,
    Show(Arguments),
}

/// What the words after the program's name ask for, or what is wrong with them.
pub fn parse(words: impl Iterator<Item = OsString>) -> Result<Command, String> {
    let mut parser = Parser::default();
    let mut words = words;
    while let Some(word) = words.next() {
        if word == "--help" {
            return Ok(Command::Help);
        }
        parser.take(word, &mut words)?;
    }
    let Some(accesses) = parser.accesses else {
        return Err("the file of accesses is not named".to_string());
    };
    Ok(Command::Show(Arguments {
        accesses,
        rom: parser.rom,
        png: parser.png,
        phase: parser.phase.unwrap_or(0),
        steps: parser.steps.unwrap_or(STEPS),
        board: board(parser.part.unwrap_or(Part::Ef9345), parser.blocks)?,
        asked: parser.asked,
    }))
}

#[derive(Default)]
struct Parser {
    accesses: Option<Source>,
    rom: Option<PathBuf>,
    png: Option<PathBuf>,
    phase: Option<u8>,
    steps: Option<usize>,
    part: Option<Part>,
    /// As they were given: which are right depends on the part, and that may be named later.
    blocks: Option<OsString>,
    asked: Option<Asked>,
}

impl Parser {
    fn take(
        &mut self,
        word: OsString,
        words: &mut impl Iterator<Item = OsString>,
    ) -> Result<(), String> {
        match word.to_str() {
            Some("--rom") => once(&mut self.rom, "--rom", operand("--rom", words)?.into()),
            Some("--png") => once(&mut self.png, "--png", operand("--png", words)?.into()),
            Some("--phase") => {
                let phase = phase(&operand("--phase", words)?)?;
                once(&mut self.phase, "--phase", phase)
            }
            Some("--steps") => {
                let steps = steps(&operand("--steps", words)?)?;
                once(&mut self.steps, "--steps", steps)
            }
            Some("--part") => {
                let part = part(&operand("--part", words)?)?;
                once(&mut self.part, "--part", part)
            }
            Some("--blocks") => {
                let blocks = operand("--blocks", words)?;
                once(&mut self.blocks, "--blocks", blocks)
            }
            Some("--plain") => once(&mut self.asked, "--plain or --colour", Asked::Plain),
            Some("--colour") => once(&mut self.asked, "--plain or --colour", Asked::Colour),
            Some("-") => self.source(Source::StandardInput),
            Some(flag) if flag.starts_with('-') => Err(format!("there is no flag {flag}")),
            _ => self.source(Source::File(word.into())),
        }
    }

    fn source(&mut self, source: Source) -> Result<(), String> {
        once(&mut self.accesses, "the file of accesses", source)
    }
}

fn once<T>(place: &mut Option<T>, name: &str, value: T) -> Result<(), String> {
    match place.replace(value) {
        None => Ok(()),
        Some(_) => Err(format!("{name} is given twice")),
    }
}

fn operand(flag: &str, words: &mut impl Iterator<Item = OsString>) -> Result<OsString, String> {
    words
        .next()
        .ok_or_else(|| format!("{flag} is the last word, and nothing follows it"))
}

fn phase(word: &OsStr) -> Result<u8, String> {
    match word.to_str() {
        Some("0") => Ok(0),
        Some("1") => Ok(1),
        _ => Err(format!(
            "the phase is 0 or 1, and not {}",
            word.to_string_lossy()
        )),
    }
}

fn steps(word: &OsStr) -> Result<usize, String> {
    let steps = word.to_str().and_then(|word| word.parse().ok());
    steps.ok_or_else(|| {
        let word = word.to_string_lossy();
        format!("the steps are a number from 0 on, and not {word}")
    })
}

fn part(word: &OsStr) -> Result<Part, String> {
    match word.to_str() {
        Some("ef9345") => Ok(Part::Ef9345),
        Some("ts9347") => Ok(Part::Ts9347),
        _ => Err(format!(
            "refusal {}: the part is ef9345 or ts9347, and not {}",
            Refusal::UnknownPart.number(),
            word.to_string_lossy()
        )),
    }
}

/// The board of a part with the blocks that were given, or with all that its pointers can name.
fn board(part: Part, blocks: Option<OsString>) -> Result<Board, String> {
    let (all, has) = match part {
        Part::Ef9345 => (Board::Sixteen, "an EF9345 has 2, 8 or 16 blocks"),
        Part::Ts9347 => (Board::ThirtyTwo, "a TS9347 has 32 blocks"),
    };
    let Some(word) = blocks else {
        return Ok(all);
    };
    let blocks = word.to_str().and_then(|word| word.parse().ok());
    let board = blocks.and_then(|blocks| Board::new(part, blocks).ok());
    board.ok_or_else(|| {
        let (number, word) = (Refusal::WrongBoard.number(), word.to_string_lossy());
        format!("refusal {number}: {has}, and not {word}")
    })
}
