//! Which character of the demonstration ROM shows a letter, for each part.

use binturamis::Part;
use rom::{ts9347, Set};

use crate::code::{Code, Look};

/// Lines to the four sides of a cell; the place in this text is the code in G11 or GOE, 10 hex more being
/// the double line. A code that no letter stands for has a space.
const SINGLE: &str = "   └ │┌├ ┘─┴┐┤┬┼";
const DOUBLE: &str = "   ╚ ║╔╠ ╝═╩╗╣╦╬";

/// The code of a cell that shows a letter with a look.
pub fn code(part: Part, letter: char, look: Look) -> Option<Code> {
    match part {
        Part::Ef9345 => of_ef9345(letter).map(|(set, c)| Code::bichrome(set, c, look)),
        Part::Ts9347 => of_ts9347(letter).map(|(set, c)| Code::of_ts9347(set, c, look)),
    }
}

/// ASCII is in G0, lines are in G11, and an accented letter is where the ROM has it.
fn of_ef9345(letter: char) -> Option<(Set, u8)> {
    if letter.is_ascii() {
        return Some((Set::G0, letter as u8));
    }
    let line = line(letter).map(|code| (Set::G11, code));
    line.or_else(|| accented(letter))
}

/// ASCII is in G0 for the most part, a few accented letters stand there too, and lines are in GOE.
fn of_ts9347(letter: char) -> Option<(ts9347::Set, u8)> {
    if letter.is_ascii() {
        let code = letter as u8;
        return ts9347::has_ascii(code).then_some((ts9347::Set::G0, code));
    }
    let name = letter.to_string();
    let mut accented = ts9347::ACCENTED.into_iter();
    let accented = accented.find(|(_, accented)| *accented == name);
    let accented = accented.map(|(code, _)| (ts9347::Set::G0, code));
    accented.or_else(|| line(letter).map(|code| (ts9347::Set::Goe, code)))
}

fn line(letter: char) -> Option<u8> {
    let place = |text: &str| text.chars().position(|line| line == letter);
    let single = place(SINGLE).map(|code| code as u8);
    single.or_else(|| place(DOUBLE).map(|code| 0x10 + code as u8))
}

/// The headings of the ROM's texts name its accented letters.
fn accented(letter: char) -> Option<(Set, u8)> {
    let (_, characters) = rom::demonstration().ok()?;
    let name = letter.to_string();
    let found = characters.iter().find(|character| character.name == name);
    found.map(|character| (character.set, character.code))
}
