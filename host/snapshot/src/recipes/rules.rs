//! The rules of a table, as mosaics.

/// Windows are bits in reading order, two of them side by side, five pairs down. Rules meet in the left
/// window of the middle pair, so one that comes from the left needs nothing more.
const UP: u16 = 0b00_00_01_01_01;
const DOWN: u16 = 0b01_01_01_00_00;
const RIGHT: u16 = 0b00_00_11_00_00;

/// The windows of a letter that is a rule.
pub fn rule(letter: char) -> Option<u16> {
    match letter {
        '─' => Some(RIGHT),
        '│' | '┤' => Some(UP | DOWN),
        '┌' | '┬' => Some(RIGHT | DOWN),
        '└' | '┴' => Some(RIGHT | UP),
        '├' | '┼' => Some(RIGHT | UP | DOWN),
        '┐' => Some(DOWN),
        '┘' => Some(UP),
        _ => None,
    }
}
