//! The application note's 40 column program: the library answers and leaves after each of its
//! operations what the second program does, on the EF9345 and on the TS9347, and its page shows what the
//! note intends.

use binturamis::{Panel, Refusal, LINE_BYTES, ROM_BYTES, ROWS};
use compare::asked::Asked;
use compare::forty_columns::operations;
use compare::lengths::Lengths;
use compare::pair::Pair;
use second::forty_columns::program;
use second::Board;

#[test]
fn it_is_the_second_programs_after_every_operation() {
    let (memory, rom) = (Lengths::WHOLE.memory, Lengths::WHOLE.rom);
    for board in [Board::SIXTEEN, Board::TS9347] {
        let mut pair = Pair::begin_board(0, board, vec![0; memory], vec![0; rom]);
        let mut numbers = [0; 15];
        for operation in operations() {
            let report = pair.apply(Asked::right(operation));
            numbers[usize::from(report.number)] += 1;
        }
        // CLF alone is not listed; and until ROR is written the draws get 8.
        let refusals: usize = numbers[1..].iter().sum();
        assert_eq!(numbers[3], 1);
        assert_eq!(refusals, numbers[3] + numbers[8]);
        let shows = pair.library.picture.iter().any(|byte| *byte != 0);
        assert!(shows, "nothing was drawn on {board:?}");
    }
}

/// A panel that has run the program, and drawn. Its CLF (05) is not listed; all else is accepted.
fn shown() -> Result<Panel, Refusal> {
    // Zero memory shows character 0 of set G0 in black on black: no byte of the ROM may show.
    let mut panel = Panel::new([0xFF; ROM_BYTES]);
    for (address, value) in program() {
        match panel.write(address, value) {
            Err(Refusal::NotListed) if (address, value) == (0x28, 0x05) => {}
            answered => answered?,
        }
    }
    assert_eq!(usize::from(panel.draw()?.count()), ROWS);
    Ok(panel)
}

/// The colours of a line of the picture, counted from the top, as letters.
fn letters(panel: &Panel, line: usize) -> String {
    let bytes = &panel.picture()[LINE_BYTES * line..LINE_BYTES * (line + 1)];
    let colours = bytes.iter().flat_map(|byte| [byte % 16, byte / 16]);
    let letter = |colour: u8| ".rgybmcW".chars().nth(usize::from(colour));
    colours
        .map(|colour| letter(colour).expect("there are eight colours"))
        .collect()
}

/// White on black, in rows 1 and 2 and columns 38 and 39: two characters wide, two high.
const LOGO: [&str; 20] = [
    ".....W....W.....",
    "...WWW....WWW...",
    "..WWWW....WWWW..",
    ".WWWWW....WWWWW.",
    "WWWWWW....WWWWWW",
    "WWWWWW....WWWWWW",
    "WWWWW......WWWWW",
    "WWWWW......WWWWW",
    "WWWW........WWWW",
    "WWWW........WWWW",
    "WWW..........WWW",
    "WWW...WWWW...WWW",
    "WW...WWWWWW...WW",
    "WW..WWWWWWWW..WW",
    "W..WWWWWWWWWW..W",
    "..WWWWWWWWWWWW..",
    "..WWWWWWWWWWWW..",
    "...WWWWWWWWWW...",
    ".....WWWWWW.....",
    ".......WW.......",
];

/// Red, blue, cyan and white, in row 13 and column 20.
const CHARACTER: [&str; 10] = [
    "rrWWbbcc", "ccccbbbb", "WWrrcccc", "ccccccbb", "bbcccccc", "ccWWWWcc", "ccrrbbcc", "WWccccWW",
    "bbccccrr", "ccbbrrcc",
];

/// The line of the intended picture.
fn intended(line: usize) -> String {
    let black = ".".repeat(320);
    match line {
        10..=29 => format!("{}{}", &black[..304], LOGO[line - 10]),
        130..=139 => format!(
            "{}{}{}",
            &black[..160],
            CHARACTER[line - 130],
            &black[168..]
        ),
        _ => black,
    }
}

#[test]
fn its_logo_and_its_quadrichrome_character_stand_where_the_note_puts_them() -> Result<(), Refusal> {
    let panel = shown()?;
    for line in 0..10 * ROWS {
        assert_eq!(letters(&panel, line), intended(line), "line {line}");
    }
    Ok(())
}
