//! The application note's 40 column program, run from zero memory: on the EF9345, for which it was
//! written, and on the TS9347.

use second::bench::Bench;
use second::forty_columns::program;
use second::Board;

/// Runs the writes from zero memory. The note tests busy before most of them; here before each.
fn run() -> Bench {
    run_on(Board::SIXTEEN)
}

fn run_on(board: Board) -> Bench {
    let mut bench = Bench::power_up_board(board);
    let mut before = 0x00;
    for (address, value) in program() {
        let status = bench.read(0x20);
        assert_eq!((status.number, status.value & 0x80), (0, 0), "busy reads 0");
        if (before, address) == (0x29, 0x25) && bench.processor.registers[0] == 0x34 {
            // ADDA R5 after a slice: the new R5 is the one read plus 4.
            assert_eq!(bench.read(0x25).value + 4, value);
        }
        if (before, address) == (0x24, 0x26) {
            // AXPNT clears bit 6 of the R6 that it reads and leaves the rest.
            assert_eq!(bench.read(0x26).value & 0xBF, value);
        }
        let expected = if (address, value) == (0x28, 0x05) {
            3
        } else {
            0
        };
        let answer = bench.write(address, value);
        assert_eq!((answer.number, answer.value), (expected, 0));
        before = address;
    }
    bench
}

#[test]
fn it_ends_drawable_with_its_registers() {
    let bench = run();
    let processor = &bench.processor;
    assert_eq!(processor.page_refusal(), None);
    assert_eq!(
        [
            processor.tgs,
            processor.mat,
            processor.pat,
            processor.dor,
            processor.ror
        ],
        [0x00, 0x4C, 0x7F, 0x13, 0x08]
    );
    assert_eq!(
        processor.registers,
        [0x01, 0x4B, 0xD8, 0xD2, 0x12, 0xEB, 20, 21]
    );
    assert_eq!(processor.status(), 0x00);
    assert_eq!(program().len(), 155);
}

#[test]
fn its_cells_and_slices_stand_where_the_note_says() {
    let bench = run();
    let page = bench.processor.page(&bench.memory);
    for row in 0..25 {
        for column in 0..40 {
            let cell = page.cell(row, column);
            let expected = match (row, column) {
                (1, 38) => [0x00, 0x80, 0x70],
                (1, 39) => [0x01, 0x80, 0x70],
                (2, 38) => [0x02, 0x80, 0x70],
                (2, 39) => [0x03, 0x80, 0x70],
                (13, 20) => [0x4B, 0xD8, 0xD2],
                _ => [0; 3],
            };
            assert_eq!([cell.c, cell.b, cell.a], expected);
        }
    }
    // Characters 0 to 3 have Y = 0 in block 3, so that their slices fill X 0 to 39 of it.
    assert_eq!(bench.memory[3072..3076], [0x20, 0x04, 0x07, 0xE0]);
    assert_eq!(bench.memory[3072 + 36..3072 + 40], [0x0F, 0xF0, 0x80, 0x01]);
    assert_eq!(bench.memory[3651], 0x9C);
    assert_eq!(bench.memory[3223], 0x86);
}

/// The logo: white on black, two cells wide and two high.
const LOGO: [&str; 20] = [
    ".....#....#.....",
    "...###....###...",
    "..####....####..",
    ".#####....#####.",
    "######....######",
    "######....######",
    "#####......#####",
    "#####......#####",
    "####........####",
    "####........####",
    "###..........###",
    "###...####...###",
    "##...######...##",
    "##..########..##",
    "#..##########..#",
    "..############..",
    "..############..",
    "...##########...",
    ".....######.....",
    ".......##.......",
];

#[test]
fn its_picture_shows_the_logo() {
    assert_logo(run());
}

/// Its pointers are in blocks 0 to 3, which both parts name alike, and the set of the logo is G'0 of both.
#[test]
fn its_picture_shows_the_logo_on_the_ts9347() {
    assert_logo(run_on(Board::TS9347));
}

fn assert_logo(mut bench: Bench) {
    let answer = bench.draw();
    assert_eq!((answer.number, answer.value), (0, 25));
    for (line, expected) in LOGO.into_iter().enumerate() {
        let row = 1 + line / 10;
        let left = bench.pixels(row, 38, line % 10);
        let right = bench.pixels(row, 39, line % 10);
        let shown: String = left
            .into_iter()
            .chain(right)
            .map(|pixel| match pixel {
                7 => '#',
                0 => '.',
                _ => '?',
            })
            .collect();
        assert_eq!(shown, expected, "line {line}");
    }
}

/// The quadrichrome character: R red, B blue, C cyan, W white, each two pixels wide.
const CHARACTER: [&str; 10] = [
    "RWBC", "CCBB", "WRCC", "CCCB", "BCCC", "CWWC", "CRBC", "WCCW", "BCCR", "CBRC",
];

#[test]
fn its_picture_shows_the_quadrichrome_character() {
    let mut bench = run();
    bench.draw();
    for (line, expected) in CHARACTER.into_iter().enumerate() {
        let pixels = bench.pixels(13, 20, line);
        for (pair, name) in expected.chars().enumerate() {
            let colour = match name {
                'R' => 1,
                'B' => 4,
                'C' => 6,
                _ => 7,
            };
            assert_eq!(pixels[2 * pair..2 * pair + 2], [colour; 2], "line {line}");
        }
    }
}

/// The slices of the same character from the left: B is D8, which is set Q3, and A is D2, which is
/// negative: magenta where the slice is 0, and green where it is 1.
const CHARACTER_OF_Q3: [usize; 10] = [0x9C, 0x5A, 0xA3, 0x6A, 0xA9, 0xBE, 0x92, 0xEB, 0x29, 0x86];

#[test]
fn its_picture_shows_the_same_character_in_two_colours_on_the_ts9347() {
    let mut bench = run_on(Board::TS9347);
    bench.draw();
    for (line, slice) in CHARACTER_OF_Q3.into_iter().enumerate() {
        let expected = [0, 1, 2, 3, 4, 5, 6, 7].map(|bit| [5, 2][slice >> bit & 1]);
        assert_eq!(bench.pixels(13, 20, line), expected, "line {line}");
    }
}

#[test]
fn the_rest_of_its_picture_is_black_whatever_the_rom_holds() {
    let mut bench = run();
    bench.rom.fill(0xFF);
    bench.picture.fill(0xEE);
    bench.draw();
    for row in 0..25 {
        for column in 0..40 {
            let shown = matches!((row, column), (1 | 2, 38 | 39) | (13, 20));
            let black = (0..10).all(|line| bench.pixels(row, column, line) == [0; 8]);
            assert_eq!(black, !shown, "row {row}, column {column}");
        }
    }
}
