//! What can be wrong with drawn characters, told with the file and the line.

use std::error::Error;
use std::fmt::{self, Display, Formatter};

use crate::{COLUMNS, SLICES};

/// What is wrong, and where. Lines are counted from 1.
#[derive(Clone, Debug, PartialEq, Eq)]
pub struct Fault {
    pub file: String,
    pub line: usize,
    pub what: What,
}

/// What is wrong with a line.
#[derive(Clone, Debug, PartialEq, Eq)]
pub enum What {
    /// A line between characters is no heading.
    NoHeading,
    UnknownSet(String),
    CodeOutOfRange(String),
    /// A heading ends after its code.
    NoName,
    /// A line of marks has this width.
    WrongWidth(usize),
    UnknownMark(char),
    /// A character ends after this number of lines.
    TooFewLines(usize),
    /// A line of marks stands where a heading could.
    TooManyLines,
    /// The character was drawn before, in this file at this line.
    DrawnTwice(String, usize),
}

impl Display for Fault {
    fn fmt(&self, out: &mut Formatter) -> fmt::Result {
        write!(out, "{}:{}: {}", self.file, self.line, self.what)
    }
}

impl Error for Fault {}

impl Display for What {
    fn fmt(&self, out: &mut Formatter) -> fmt::Result {
        match self {
            What::NoHeading => write!(out, "no heading: it is set, code and name, as in `G0 41 A`"),
            What::UnknownSet(set) => write!(out, "`{set}` is no set: G0, G10, G11, G20, G21 are"),
            What::CodeOutOfRange(code) => write!(out, "`{code}` is no code: 00 to 7F are"),
            What::NoName => write!(out, "the heading does not name what is shown"),
            What::WrongWidth(width) => write!(out, "{width} marks, where a line has {COLUMNS}"),
            What::UnknownMark(mark) => write!(out, "`{mark}` is no mark: `#` and `.` are"),
            What::TooFewLines(lines) => write!(out, "ends after {lines} lines of {SLICES}"),
            What::TooManyLines => write!(out, "marks after the {SLICES} lines of a character"),
            What::DrawnTwice(file, line) => write!(out, "drawn already, at {file}:{line}"),
        }
    }
}
