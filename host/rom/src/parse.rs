//! Reads drawn characters from a text.

use std::iter::{Enumerate, Peekable};
use std::str::Lines;

use crate::{Character, Fault, Set, What, CODES, COLUMNS, SLICES};

/// The characters of a text in the order in which they are drawn. `file` is its name in faults.
pub fn parse(file: &str, text: &str) -> Result<Vec<Character>, Fault> {
    let mut reader = Reader {
        file,
        lines: text.lines().enumerate().peekable(),
        last: 0,
    };
    let mut characters = Vec::new();
    while let Some((line, heading)) = reader.heading_line() {
        characters.push(reader.character(line, heading)?);
    }
    Ok(characters)
}

/// The lines of a text that are still to be read.
struct Reader<'a> {
    file: &'a str,
    lines: Peekable<Enumerate<Lines<'a>>>,
    /// The line read last, counted from 1.
    last: usize,
}

impl<'a> Reader<'a> {
    fn next(&mut self) -> Option<(usize, &'a str)> {
        let (index, text) = self.lines.next()?;
        self.last = index + 1;
        Some((self.last, text))
    }

    /// The next line that stands for something.
    fn heading_line(&mut self) -> Option<(usize, &'a str)> {
        loop {
            let (line, text) = self.next()?;
            if !is_between(text) {
                return Some((line, text));
            }
        }
    }

    fn character(&mut self, line: usize, heading: &str) -> Result<Character, Fault> {
        let (set, code, name) = heading_of(heading).map_err(|what| self.fault(line, what))?;
        Ok(Character {
            set,
            code,
            name,
            slices: self.slices()?,
            file: self.file.to_string(),
            line,
        })
    }

    fn slices(&mut self) -> Result<[u8; SLICES], Fault> {
        let mut slices = [0; SLICES];
        for (drawn, slice) in slices.iter_mut().enumerate() {
            let Some((index, text)) = self.lines.next_if(|(_, text)| is_marks(text)) else {
                return Err(self.fault(self.last, What::TooFewLines(drawn)));
            };
            self.last = index + 1;
            *slice = slice_of(text).map_err(|what| self.fault(self.last, what))?;
        }
        Ok(slices)
    }

    fn fault(&self, line: usize, what: What) -> Fault {
        Fault {
            file: self.file.to_string(),
            line,
            what,
        }
    }
}

/// An empty line or a comment, which stands between characters.
fn is_between(text: &str) -> bool {
    text.trim().is_empty() || text.starts_with(';')
}

/// A line inside a character that is meant as marks, whether or not they are right: it does not
/// stand between characters, and it does not look like the next heading.
fn is_marks(text: &str) -> bool {
    let looks_like_heading = text.starts_with('G') && text.contains(' ');
    !is_between(text) && !looks_like_heading
}

/// The set, the code and the name of a heading.
fn heading_of(text: &str) -> Result<(Set, u8, String), What> {
    if text.starts_with(['#', '.']) {
        return Err(What::TooManyLines);
    }
    let (set, rest) = text.split_once(' ').ok_or(What::NoHeading)?;
    let set = Set::named(set).ok_or_else(|| What::UnknownSet(set.to_string()))?;
    let (code, name) = rest.split_once(' ').unwrap_or((rest, ""));
    let code = code_of(code).ok_or_else(|| What::CodeOutOfRange(code.to_string()))?;
    match name.trim() {
        "" => Err(What::NoName),
        name => Ok((set, code, name.to_string())),
    }
}

fn code_of(text: &str) -> Option<u8> {
    let is_hex = text.len() == 2 && text.bytes().all(|digit| digit.is_ascii_hexdigit());
    let code = u8::from_str_radix(text, 16).ok()?;
    (is_hex && usize::from(code) < CODES).then_some(code)
}

/// The slice of a line of marks: its leftmost mark is bit 0.
fn slice_of(text: &str) -> Result<u8, What> {
    let width = text.chars().count();
    if width != COLUMNS {
        return Err(What::WrongWidth(width));
    }
    let mut slice = 0;
    for (column, mark) in text.chars().enumerate() {
        match mark {
            '#' => slice |= 1 << column,
            '.' => {}
            _ => return Err(What::UnknownMark(mark)),
        }
    }
    Ok(slice)
}
