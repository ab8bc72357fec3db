//! The program `panel`: what it prints for the rules page's input, for inputs cut anywhere, for a
//! refused last write and for random writes, next to what the second program prints.

use panel::program::Program;
use panel::writes::{any_execution, any_writes, planned_writes};
use second::random::Random;

const EXAMPLE: [u8; 28] = [
    0x21, 0x08, 0x28, 0x87, 0x21, 0x03, 0x28, 0x84, 0x26, 0x00, 0x27, 0xC0, 0x20, 0x30, 0x29, 0x52,
    0x20, 0x00, 0x26, 0x08, 0x27, 0x00, 0x22, 0x80, 0x23, 0x70, 0x29, 0x00,
];

/// The second line of the example.
const EIGHT: &str = "70 00 07 07 00 00 00 00";

/// The second line where nothing is drawn.
const ZEROS: &str = "00 00 00 00 00 00 00 00";

/// What the built program prints for an input.
fn printed(program: &Program, input: &[u8]) -> Result<String, String> {
    let bytes = program.written(input.to_vec())?;
    String::from_utf8(bytes).map_err(|error| error.to_string())
}

/// What both programs print for an input; `told` says which input it is.
fn agreed(program: &Program, told: &str, input: &[u8]) -> Result<String, String> {
    let printed = printed(program, input)?;
    assert_eq!(printed, second::panel(input), "{told}");
    Ok(printed)
}

fn example_and(more: &[u8]) -> Vec<u8> {
    [&EXAMPLE, more].concat()
}

#[test]
fn the_example_of_the_rules_page() -> Result<(), String> {
    let program = Program::built("panel")?;
    let printed = agreed(&program, "the example", &EXAMPLE)?;
    assert_eq!(printed, format!("0 0 25\n{EIGHT}\n"));
    // `rt ci` runs the program on these two files.
    assert_eq!(include_bytes!("../../../crates/panel/stdin"), &EXAMPLE);
    assert_eq!(include_str!("../../../crates/panel/stdout"), printed);
    Ok(())
}

#[test]
fn the_example_cut_anywhere() -> Result<(), String> {
    let program = Program::built("panel")?;
    for length in 0..EXAMPLE.len() {
        agreed(&program, &format!("{length} bytes"), &EXAMPLE[..length])?;
    }
    Ok(())
}

#[test]
fn empty_input() -> Result<(), String> {
    let program = Program::built("panel")?;
    let printed = agreed(&program, "no input", &[])?;
    assert_eq!(printed, format!("0 8 0\n{ZEROS}\n"));
    Ok(())
}

#[test]
fn an_odd_last_byte_is_ignored() -> Result<(), String> {
    let program = Program::built("panel")?;
    let alone = agreed(&program, "one byte", &[0x3F])?;
    assert_eq!(alone, format!("0 8 0\n{ZEROS}\n"));
    let after = agreed(&program, "the example and one byte", &example_and(&[0x3F]))?;
    assert_eq!(after, format!("0 0 25\n{EIGHT}\n"));
    Ok(())
}

#[test]
fn the_last_writes_number_is_printed() -> Result<(), String> {
    let program = Program::built("panel")?;
    // Another address, a command that is not listed, and pointers with Y = 1 and X = 40.
    let refused: [(u8, &[u8]); 5] = [
        (2, &[0x3F, 0x00]),
        (3, &[0x28, 0x05]),
        (4, &[0x26, 0x01, 0x29, 0x00]),
        (4, &[0x27, 0x28, 0x29, 0x00]),
        (0, &[0x3F, 0x00, 0x21, 0x00]),
    ];
    for (number, more) in refused {
        let input = example_and(more);
        let printed = agreed(&program, &format!("number {number}"), &input)?;
        assert_eq!(printed, format!("{number} 0 25\n{EIGHT}\n"));
    }
    Ok(())
}

/// It has a picture of 40 columns: of a page of 80 the draw gets 6, where it would get 7 for TGS bits 7
/// and 6 apart.
#[test]
fn a_page_of_80_columns_is_refused_for_its_picture() -> Result<(), String> {
    let program = Program::built("panel")?;
    for (tgs, number) in [(0xC0, 6), (0xDF, 6), (0xE0, 7), (0x40, 7), (0x80, 7)] {
        let more = [0x21, tgs, 0x28, 0x81];
        let told = format!("TGS {tgs:02X}");
        let alone = agreed(&program, &told, &more)?;
        assert_eq!(alone, format!("0 {number} 0\n{ZEROS}\n"));
        let after = agreed(&program, &told, &example_and(&more))?;
        assert_eq!(after, format!("0 {number} 0\n{ZEROS}\n"));
        // Back in 40 columns the page is drawn.
        let back = [&more[..], &[0x21, 0x00, 0x28, 0x81]].concat();
        let drawn = agreed(&program, &told, &example_and(&back))?;
        assert_eq!(drawn, format!("0 0 25\n{EIGHT}\n"));
    }
    Ok(())
}

/// The program reads by chunks of 4,096 bytes, so that a state, a number or half a pair could be
/// lost between two of them.
#[test]
fn long_inputs() -> Result<(), String> {
    let program = Program::built("panel")?;
    for length in [
        4_094, 4_095, 4_096, 4_097, 4_098, 8_191, 8_192, 8_193, 100_001,
    ] {
        for seed in 0..4 {
            let told = format!("seed {seed}, {length} bytes");
            agreed(&program, &told, &planned_writes(seed, length))?;
            agreed(&program, &told, &any_writes(seed, length))?;
        }
    }
    Ok(())
}

#[test]
fn a_refused_write_at_the_end_of_a_chunk() -> Result<(), String> {
    let program = Program::built("panel")?;
    for pairs in [2_048, 4_096] {
        // The example's writes stand first, and R1 is written until the chunk is full.
        let mut input = EXAMPLE.to_vec();
        input.resize(2 * pairs - 2, 0x21);
        input.extend([0x3F, 0x00]);
        for more in [&[][..], &[0x21]] {
            let whole = [&input, more].concat();
            let printed = agreed(&program, &format!("{} bytes", whole.len()), &whole)?;
            assert_eq!(printed, format!("2 0 25\n{EIGHT}\n"));
        }
    }
    Ok(())
}

/// How often each number was printed, and how often a line with colours.
#[derive(Debug, Default)]
struct Met {
    writes: [usize; 12],
    draws: [usize; 10],
    coloured: usize,
}

impl Met {
    fn look(&mut self, printed: &str) {
        self.writes[number(printed, 0)] += 1;
        self.draws[number(printed, 1)] += 1;
        self.coloured += usize::from(!printed.contains(ZEROS));
    }

    fn inputs(&self) -> usize {
        self.writes.iter().sum()
    }
}

/// One of the numbers of the first line.
fn number(printed: &str, at: usize) -> usize {
    let word = printed.split(' ').nth(at);
    let number = word.and_then(|word| word.parse().ok());
    number.unwrap_or_else(|| panic!("no number {at} in {printed:?}"))
}

#[test]
fn random_inputs() -> Result<(), String> {
    let program = Program::built("panel")?;
    let mut met = Met::default();
    for seed in 100..300 {
        let length = Random::new(seed).below(6_000);
        let planned = planned_writes(seed, length);
        let executed = [planned_writes(!seed, length / 2 * 2), any_execution(seed)].concat();
        for input in [planned, executed, any_writes(seed, length / 100)] {
            met.look(&agreed(&program, &format!("seed {seed}"), &input)?);
        }
    }
    println!("inputs compared: {}; {met:?}", met.inputs());
    for number in [0, 2, 3, 4] {
        assert!(
            met.writes[number] > 20,
            "last write's number {number}: {met:?}"
        );
    }
    for number in [0, 6, 8] {
        assert!(met.draws[number] > 50, "draw's number {number}: {met:?}");
    }
    assert!(met.coloured > 50, "{met:?}");
    Ok(())
}
