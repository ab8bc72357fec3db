//! The application note's 80 column program: the library answers and leaves after each of its accesses
//! what the second program does, as it is printed and with the ROR that shows the block of its strings;
//! then its page shows what the note intends.

use binturamis::{Panel, Refusal, Width, ROM_BYTES, ROWS};
use compare::asked::Asked;
use compare::eighty_columns::operations;
use compare::lengths::Lengths;
use compare::pair::Pair;
use second::eighty_columns::{program, PRINTED_ROR, STRINGS_ROR};
use second::random::Random;
use second::Operation;

#[test]
fn it_is_the_second_programs_after_every_access() {
    for ror in [PRINTED_ROR, STRINGS_ROR] {
        let rom = Random::new(80).bytes(Lengths::WHOLE.rom);
        let mut pair = Pair::begin(0, vec![0; Lengths::WHOLE.memory], rom);
        let mut numbers = [0; 15];
        for operation in operations(ror) {
            let report = pair.apply(Asked::right(operation));
            numbers[usize::from(report.number)] += 1;
        }
        // CLF alone is not listed; and until ROR is written the draws get 8.
        assert_eq!((numbers[3], numbers[8] > 0), (1, true));
        let refusals: usize = numbers[1..].iter().sum();
        assert_eq!(refusals, numbers[3] + numbers[8]);
        assert_eq!(pair.library.processor.state().width(), Width::Eighty);
    }
}

/// A ROM in which the letters of the strings can be told apart: each slice of one is its number in the
/// alphabet. Any other character is blank.
fn rom() -> [u8; ROM_BYTES] {
    let mut rom = [0; ROM_BYTES];
    for number in 1..=26 {
        rom[10 * (0x40 + number)..][..10].fill(number as u8);
    }
    rom
}

/// A panel that has run the program as far as its strings, and drawn.
fn shown(ror: u8) -> Result<Panel, Refusal> {
    let mut panel = Panel::new(rom());
    for operation in program(ror) {
        // What follows, from the read form of IND on, rolls the page up for ever.
        match operation {
            Operation::Write {
                address: 0x28,
                value: 0x8F,
            } => break,
            Operation::Write { address, value } => match panel.write(address, value) {
                Err(Refusal::NotListed) if value == 0x05 => {}
                answered => answered?,
            },
            Operation::Read { address } => assert_eq!(panel.read(address)? & 0x80, 0),
            _ => panic!("{operation:?} is no access"),
        }
    }
    assert_eq!(usize::from(panel.draw()?.count()), ROWS);
    Ok(panel)
}

/// The letters that a line of a row shows, in one colour on another, as far as there are letters.
fn letters(panel: &Panel, row: usize, line: usize, one: u8, zero: u8) -> String {
    let bytes = &panel.row(row)[240 * line..][..240];
    let pixels: Vec<u8> = bytes
        .iter()
        .flat_map(|byte| [byte % 16, byte / 16])
        .collect();
    assert!(pixels.iter().all(|pixel| [one, zero].contains(pixel)));
    let number = |cell: &[u8]| -> u8 {
        let bits = (0..).zip(cell).filter(|(_, pixel)| **pixel == one);
        bits.map(|(bit, _)| 1 << bit).sum()
    };
    let numbers = pixels.chunks(6).map(number);
    numbers
        .take_while(|number| (1..=26).contains(number))
        .map(|number| (0x40 + number) as char)
        .collect()
}

const WHITE: u8 = 7;
const BLUE: u8 = 4;

#[test]
fn its_strings_stand_where_the_note_puts_them() -> Result<(), Refusal> {
    let mut panel = shown(STRINGS_ROR)?;
    // "ABCD..." is negative and flashes, so it is shown in phase 1: in the margin's colour on white.
    panel.turn(1)?;
    assert!(panel.draw()?.rows().eq([1]));
    for row in 0..ROWS {
        for line in 0..10 {
            match (row, line) {
                (1, _) => assert_eq!(letters(&panel, 1, line, BLUE, WHITE), "ABCDEFGHIJ"),
                // Underlined, so the last line is white throughout.
                (3, 9) => assert!(panel.row(3)[240 * 9..][..30].iter().all(|two| *two == 0x77)),
                (3, _) => assert_eq!(letters(&panel, 3, line, WHITE, BLUE), "KLMNOPQRST"),
                _ => assert_eq!(letters(&panel, row, line, WHITE, BLUE), ""),
            }
        }
    }
    Ok(())
}

#[test]
fn as_printed_it_shows_another_block() -> Result<(), Refusal> {
    let panel = shown(PRINTED_ROR)?;
    assert!(panel.picture().iter().all(|two| *two == 0x44));
    Ok(())
}
