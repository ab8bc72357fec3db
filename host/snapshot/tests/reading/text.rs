//! Reads coloured block characters back as pixels.

const UPPER_LEFT: &str = "▘▀▌▛▚▜▙█";
const UPPER_RIGHT: &str = "▝▀▞▛▐▜▟█";
const LOWER_LEFT: &str = "▖▌▞▛▄▙▟█";
const LOWER_RIGHT: &str = "▗▚▐▜▄▙▟█";

/// Lines of pixels by number of colour, two for a line of text and two for a character.
pub fn quarters(text: &str) -> Vec<Vec<u8>> {
    let mut lines = Vec::new();
    for line in text.lines() {
        let characters = characters(line);
        for quarters in [[UPPER_LEFT, UPPER_RIGHT], [LOWER_LEFT, LOWER_RIGHT]] {
            let pixels = characters
                .iter()
                .flat_map(|(block, foreground, background)| {
                    let has = |quarter: &str| block != &' ' && quarter.contains(*block);
                    quarters.map(|quarter| {
                        if has(quarter) {
                            *foreground
                        } else {
                            *background
                        }
                    })
                });
            lines.push(pixels.collect());
        }
    }
    lines
}

/// The characters of a line with their foreground and background; 255 is the terminal's own.
fn characters(line: &str) -> Vec<(char, u8, u8)> {
    let (mut foreground, mut background) = (255, 255);
    let mut characters = Vec::new();
    let mut rest = line;
    while let Some(first) = rest.chars().next() {
        if let Some(escape) = rest.strip_prefix("\x1b[") {
            let (codes, after) = escape.split_once('m').expect("an escape code ends");
            match codes.split_once(";5;") {
                Some(("38", number)) => foreground = number_of_colour(number),
                Some(("48", number)) => background = number_of_colour(number),
                _ => (foreground, background) = (255, 255),
            }
            rest = after;
        } else {
            characters.push((first, foreground, background));
            rest = &rest[first.len_utf8()..];
        }
    }
    characters
}

/// The corners of the colour cube, in the order of the eight colours.
fn number_of_colour(number: &str) -> u8 {
    let corners = ["16", "196", "46", "226", "21", "201", "51", "231"];
    let found = corners.iter().position(|corner| *corner == number);
    found.expect("one of the eight colours") as u8
}
