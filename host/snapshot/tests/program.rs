//! The program `snapshot`: what it shows and writes, what it says, and what it ends with.

mod reading;

use std::fs;
use std::io::Write;
use std::path::{Path, PathBuf};
use std::process::{Command, Output, Stdio};

use snapshot::access::to_bytes;
use snapshot::demonstration::{page, ts9347};
use snapshot::recipes;
use snapshot::terminal::{allows_colour, of_size};

/// The example of the rules: a user slice 52 hex in the first cell of row 1.
const EXAMPLE: [u8; 28] = [
    0x21, 0x08, 0x28, 0x87, 0x21, 0x03, 0x28, 0x84, 0x26, 0x00, 0x27, 0xC0, 0x20, 0x30, 0x29, 0x52,
    0x20, 0x00, 0x26, 0x08, 0x27, 0x00, 0x22, 0x80, 0x23, 0x70, 0x29, 0x00,
];

/// A file of this test in the folder that cargo keeps for tests.
fn file(name: &str) -> PathBuf {
    PathBuf::from(env!("CARGO_TARGET_TMPDIR")).join(format!("snapshot-{name}"))
}

fn with(name: &str, bytes: &[u8]) -> PathBuf {
    let file = file(name);
    fs::write(&file, bytes).expect("a file");
    file
}

fn command() -> Command {
    let mut command = Command::new(env!("CARGO_BIN_EXE_snapshot"));
    command.env_remove("COLUMNS").stdin(Stdio::null());
    command
}

/// Runs it with words that are flags or files.
fn run(words: &[&Path]) -> Output {
    command().args(words).output().expect("the program runs")
}

fn path(word: &str) -> &Path {
    Path::new(word)
}

fn told(output: &Output) -> String {
    String::from_utf8_lossy(&output.stderr).to_string()
}

fn printed(output: &Output) -> String {
    String::from_utf8_lossy(&output.stdout).to_string()
}

fn assert_fails(output: &Output, exit: i32, message: &str) {
    assert_eq!(output.status.code(), Some(exit), "{}", told(output));
    assert!(told(output).contains(message), "{}", told(output));
    assert!(output.stdout.is_empty());
}

#[test]
fn the_example_of_the_rules_is_written_as_a_png() {
    let accesses = with("example", &EXAMPLE);
    let png = file("example.png");
    let output = run(&[&accesses, path("--png"), &png]);
    assert!(output.status.success(), "{}", told(&output));
    let read = reading::png::read(&fs::read(png).expect("it was written")).expect("a right PNG");
    let line = &read.pixels[10 * 320..11 * 320];
    assert_eq!(line[..8], [0, 7, 0, 0, 7, 0, 7, 0]);
    assert!(line[8..].iter().all(|number| *number == 0));
}

/// A mosaic in the last position of the service row, with its upper left window and its lower right
/// one, red on blue.
const EIGHTY: [u8; 26] = [
    0x21, 0xC0, 0x28, 0x81, 0x21, 0x04, 0x28, 0x82, 0x21, 0x01, 0x28, 0x84, 0x21, 0x08, 0x28, 0x87,
    0x20, 0x50, 0x26, 0x00, 0x27, 0xA7, 0x23, 0x08, 0x29, 0x81,
];

#[test]
fn a_page_of_80_columns_is_written_as_a_wider_png() {
    let accesses = with("eighty", &EIGHTY);
    let png = file("eighty.png");
    let output = run(&[&accesses, path("--png"), &png]);
    assert!(output.status.success(), "{}", told(&output));
    assert!(told(&output).contains("480 by 250 pixels"));
    let read = reading::png::read(&fs::read(png).expect("it was written")).expect("a right PNG");
    assert_eq!((read.width, read.height), (480, 250));
    for (line, cell) in [
        (0, [1, 1, 1, 4, 4, 4]),
        (2, [4; 6]),
        (9, [4, 4, 4, 1, 1, 1]),
    ] {
        assert_eq!(read.pixels[480 * line + 474..480 * (line + 1)], cell);
    }
    let blue = read.pixels.iter().filter(|number| **number == 4).count();
    assert_eq!(blue, 480 * 250 - 12);
}

#[test]
fn standard_input_is_read_where_the_file_is_a_dash() {
    let mut child = command()
        .arg("-")
        .stdin(Stdio::piped())
        .stdout(Stdio::piped())
        .stderr(Stdio::piped())
        .spawn()
        .expect("the program runs");
    let mut input = child.stdin.take().expect("a pipe");
    input.write_all(&EXAMPLE).expect("it reads");
    drop(input);
    let output = child.wait_with_output().expect("it ends");
    assert!(output.status.success(), "{}", told(&output));
    // The last line of the service row is nothing, and the next is the slice.
    assert_eq!(printed(&output).lines().nth(5), Some("▝ ▘▘"));
}

#[test]
fn the_rom_is_the_users_if_given() {
    // Character 41 hex of G0 in the first cell of the service row.
    let bytes = [0x21, 0x08, 0x28, 0x87, 0x20, 0x00, 0x23, 0x70, 0x29, 0x41];
    let accesses = with("letter", &bytes);
    let first = |output: &Output| printed(output).lines().next().map(str::to_string);
    assert_eq!(first(&run(&[&accesses])), Some("▗▄▖".to_string()));
    let mut rom = vec![0; 6_400];
    rom[650] = 0x81;
    let rom = with("own.rom", &rom);
    let output = run(&[&accesses, path("--rom"), &rom]);
    assert_eq!(first(&output), Some("▘  ▝".to_string()));
}

/// The letter A in the first cell of the service row, white on black, in 80 columns.
#[test]
fn the_letters_are_narrow_in_80_columns_unless_a_rom_is_given() {
    let bytes = [
        0x21, 0xC0, 0x28, 0x81, 0x21, 0x07, 0x28, 0x84, 0x21, 0x08, 0x28, 0x87, 0x20, 0x50, 0x29,
        0x41,
    ];
    let accesses = with("narrow", &bytes);
    let first = |output: &Output| printed(output).lines().nth(1).map(str::to_string);
    assert_eq!(first(&run(&[&accesses])), Some("▌ ▌".to_string()));
    let (wide, _) = rom::demonstration().expect("the texts are right");
    let rom = with("wide.rom", &wide);
    let output = run(&[&accesses, path("--rom"), &rom]);
    assert_eq!(first(&output), Some("█ █".to_string()));
}

#[test]
fn the_phase_hides_what_flashes_in_80_columns() {
    let accesses = with("recipes", &to_bytes(&recipes::page()));
    let shown = printed(&run(&[&accesses]));
    let hidden = printed(&run(&[&accesses, path("--phase"), path("1")]));
    let differ = |(line, pair): (usize, (&str, &str))| (pair.0 != pair.1).then_some(line);
    let pairs = shown.lines().zip(hidden.lines()).enumerate();
    let lines: Vec<usize> = pairs.filter_map(differ).collect();
    assert!(!lines.is_empty());
    // Five lines of text for a row: row 6.
    assert!(
        lines.iter().all(|line| (30..35).contains(line)),
        "{lines:?}"
    );
}

#[test]
fn the_phase_hides_what_flashes() {
    let accesses = with("demonstration", &to_bytes(&page()));
    let shown = printed(&run(&[&accesses]));
    let again = printed(&run(&[&accesses, path("--phase"), path("0")]));
    let hidden = printed(&run(&[&accesses, path("--phase"), path("1")]));
    assert_eq!(shown, again);
    let differ = |(line, pair): (usize, (&str, &str))| (pair.0 != pair.1).then_some(line);
    let pairs = shown.lines().zip(hidden.lines()).enumerate();
    let lines: Vec<usize> = pairs.filter_map(differ).collect();
    assert!(!lines.is_empty());
    // Five lines of text for a row: rows 20 and 21.
    assert!(
        lines.iter().all(|line| (100..110).contains(line)),
        "{lines:?}"
    );
}

#[test]
fn colour_is_written_where_it_is_asked_for() {
    let accesses = with("coloured", &EXAMPLE);
    let run = |flag: &str| printed(&run(&[&accesses, path(flag)]));
    assert!(run("--colour").contains("\x1b[38;5;"));
    assert!(!run("--plain").contains('\x1b'));
    // Standard output is no terminal here.
    let output = command().arg(&accesses).env("TERM", "xterm").output();
    assert!(!printed(&output.expect("it runs")).contains('\x1b'));
}

#[test]
fn colour_is_the_terminals_unless_it_is_not_wanted() {
    assert!(allows_colour("xterm-256color", ""));
    assert!(!allows_colour("dumb", ""));
    assert!(!allows_colour("", ""));
    assert!(!allows_colour("xterm-256color", "1"));
}

#[test]
fn the_width_is_the_one_told() {
    assert_eq!(of_size("24 80\n"), Some(80));
    assert_eq!(of_size("0 0\n"), None);
    assert_eq!(of_size(""), None);
    let accesses = with("wide", &EXAMPLE);
    for (columns, note) in [
        ("320", "in 320 columns"),
        ("80", "in 80 columns"),
        ("none", "in 160 columns"),
        ("0", "in 160 columns"),
    ] {
        let output = command().arg(&accesses).env("COLUMNS", columns).output();
        assert!(told(&output.expect("it runs")).contains(note));
    }
}

#[test]
fn refused_accesses_are_told_and_do_not_stop_it() {
    // A command that is not listed and an address that is not ours, before the example.
    let mut bytes = vec![0x21, 0x00, 0x28, 0x55, 0x31, 0x00];
    bytes.extend(EXAMPLE);
    let output = run(&[&with("refused", &bytes)]);
    assert!(output.status.success());
    let first = "2 of 17 accesses refused, the first of them access 2, at byte 2, \
                 the value 55 to the address 28: refusal 3: a command to execute is not listed";
    assert!(told(&output).contains(first), "{}", told(&output));
    assert_eq!(printed(&output).lines().nth(5), Some("▝ ▘▘"));
}

/// The letter A in the first cell of the service row, white on black, and then MVT: from the main pointer, which is
/// there, to the auxiliary one at X 38 of the same row, with a stop or without. Then one more access.
fn letter_moved<const N: usize>(command: u8, last: [u8; N]) -> Vec<u8> {
    let mut bytes = vec![
        0x21, 0x08, 0x28, 0x87, 0x20, 0x00, 0x23, 0x70, 0x29, 0x41, 0x24, 0x00, 0x25, 38, 0x28,
        command,
    ];
    bytes.extend(last);
    bytes
}

#[test]
fn a_move_with_a_stop_has_ended_before_the_next_access() {
    let accesses = with("moved", &letter_moved(0xF5, [0x21, 0x00]));
    for words in [&[][..], &["--steps", "2"], &["--steps", "1000000"]] {
        let mut all: Vec<&Path> = words.iter().map(|word| path(word)).collect();
        all.push(&accesses);
        let output = run(&all);
        assert!(output.status.success(), "{}", told(&output));
        assert!(!told(&output).contains("snapshot:"), "{}", told(&output));
        // The A at the left, and 38 cells further on, four columns for each, the same.
        let first = format!("▗▄▖{}▗▄▖", " ".repeat(38 * 4 - 3));
        let line = printed(&output).lines().next().map(str::to_string);
        assert_eq!(line, Some(first));
    }
}

#[test]
fn an_access_while_a_move_runs_is_refused_and_told_with_the_move() {
    let accesses = with("too-few-steps", &letter_moved(0xF5, [0x21, 0x00]));
    for (steps, made) in [("0", "0 steps"), ("1", "1 step")] {
        let output = run(&[&accesses, path("--steps"), path(steps)]);
        assert!(output.status.success(), "{}", told(&output));
        let first = format!(
            "snapshot: 1 of 9 accesses refused, the first of them access 9, at byte 16, the value 00 to \
             the address 21: refusal 10: a move runs, and the access is neither a status read at \
             address 20 nor a NOP written to address 28; the move that access 8, at byte 14, started \
             has made {made}\n"
        );
        assert!(told(&output).contains(&first), "{}", told(&output));
        let running = format!(
            "snapshot: the move that access 8, at byte 14, started has made {made} and still runs\n"
        );
        assert!(told(&output).contains(&running), "{}", told(&output));
    }
}

/// A NOP is accepted however many steps were made; without one the move is told at the end.
#[test]
fn a_move_without_a_stop_makes_its_steps_and_is_ended_by_a_nop() {
    let ended = with("ended", &letter_moved(0xF6, [0x28, 0x91]));
    let running = with("running", &letter_moved(0xF6, []));
    let output = run(&[&ended, path("--steps"), path("1")]);
    assert!(output.status.success(), "{}", told(&output));
    assert!(!told(&output).contains("snapshot:"), "{}", told(&output));
    let output = run(&[&running]);
    assert!(output.status.success(), "{}", told(&output));
    let still =
        "snapshot: the move that access 8, at byte 14, started has made 40 steps and still runs";
    assert!(told(&output).contains(still), "{}", told(&output));
    assert!(!told(&output).contains("refused"), "{}", told(&output));
}

/// The example has its slice in block 3, by OCT, and its cell in blocks 0 to 2, by KRF.
#[test]
fn a_smaller_board_refuses_what_is_not_fitted() {
    let accesses = with("board", &EXAMPLE);
    for blocks in ["8", "16"] {
        let output = run(&[&accesses, path("--blocks"), path(blocks)]);
        assert!(output.status.success(), "{}", told(&output));
        assert!(!told(&output).contains("refused"), "{}", told(&output));
        assert_eq!(printed(&output).lines().nth(5), Some("▝ ▘▘"));
    }
    let output = run(&[&accesses, path("--blocks"), path("2")]);
    assert!(output.status.success(), "{}", told(&output));
    let first = "2 of 14 accesses refused, the first of them access 8, at byte 14, the value 52 to \
                 the address 29: refusal 11: a byte of the command lies in a block that is not fitted";
    assert!(told(&output).contains(first), "{}", told(&output));
    assert!(printed(&output).lines().all(|line| line.trim().is_empty()));
}

/// The letter A of G0 in the first cell of the service row of a page in block 16, white on black, as a TS9347
/// has it: R6 bit 7 is Z4.
const LETTER_OF_TS9347: [u8; 16] = [
    0x21, 0x80, 0x28, 0x84, 0x21, 0x08, 0x28, 0x87, 0x26, 0x80, 0x20, 0x00, 0x23, 0x70, 0x29, 0x41,
];

#[test]
fn a_ts9347_is_shown_where_the_part_is_named() {
    let accesses = with("ts9347", &LETTER_OF_TS9347);
    let first = |output: &Output| printed(output).lines().next().map(str::to_string);
    for words in [
        &["--part", "ts9347"][..],
        &["--part", "ts9347", "--blocks", "32"],
        &["--blocks", "32", "--part", "ts9347"],
    ] {
        let mut all: Vec<&Path> = words.iter().map(|word| path(word)).collect();
        all.push(&accesses);
        let output = run(&all);
        assert!(output.status.success(), "{}", told(&output));
        assert!(!told(&output).contains("refused"), "{}", told(&output));
        assert_eq!(first(&output), Some("▗▄▖".to_string()));
    }
    // An EF9345 has the cell in block 8 and the page in block 0.
    for words in [&[][..], &["--part", "ef9345"]] {
        let mut all: Vec<&Path> = words.iter().map(|word| path(word)).collect();
        all.push(&accesses);
        assert_eq!(first(&run(&all)), Some(String::new()));
    }
}

/// The same letter of a ROM whose third set, G0, is the user's.
#[test]
fn the_rom_of_a_ts9347_is_the_users_if_given() {
    let accesses = with("ts9347-letter", &LETTER_OF_TS9347);
    let mut rom = vec![0; 3_840];
    rom[2_560 + 650] = 0x81;
    let rom = with("own-3840.rom", &rom);
    let output = run(&[
        &accesses,
        path("--part"),
        path("ts9347"),
        path("--rom"),
        &rom,
    ]);
    let first = printed(&output).lines().next().map(str::to_string);
    assert_eq!(first, Some("▘  ▝".to_string()), "{}", told(&output));
}

/// TGS asks for 80 columns, which the part does not have.
#[test]
fn a_ts9347_has_no_page_of_80_columns() {
    let accesses = with("ts9347-eighty", &EIGHTY);
    let output = run(&[&accesses, path("--part"), path("ts9347")]);
    assert_fails(&output, 3, "the page cannot be drawn: refusal 7: TGS bit 7");
    // KRL is the last of the accesses.
    let first = "1 of 13 accesses refused, the first of them access 13, at byte 24, \
                 the value 81 to the address 29: refusal 3: a command to execute is not listed";
    assert!(told(&output).contains(first), "{}", told(&output));
}

#[test]
fn the_phase_hides_what_flashes_on_a_ts9347() {
    let accesses = with("ts9347-page", &to_bytes(&ts9347()));
    let part = [path("--part"), path("ts9347")];
    let shown = printed(&run(&[&accesses, part[0], part[1]]));
    let hidden = printed(&run(&[
        &accesses,
        part[0],
        part[1],
        path("--phase"),
        path("1"),
    ]));
    let differ = |(line, pair): (usize, (&str, &str))| (pair.0 != pair.1).then_some(line);
    let pairs = shown.lines().zip(hidden.lines()).enumerate();
    let lines: Vec<usize> = pairs.filter_map(differ).collect();
    assert!(!lines.is_empty());
    // Five lines of text for a row: rows 20 and 21.
    assert!(
        lines.iter().all(|line| (100..110).contains(line)),
        "{lines:?}"
    );
}

/// Characters 41 hex in both cells of the first column, by OCT: the attributes are not fitted.
#[test]
fn a_board_of_2_blocks_shows_plain_text_in_80_columns() {
    let bytes = [
        0x21, 0xC0, 0x28, 0x81, 0x21, 0x07, 0x28, 0x84, 0x21, 0x08, 0x28, 0x87, 0x20, 0x30, 0x29,
        0x41, 0x27, 0x80, 0x29, 0x41,
    ];
    let accesses = with("plain-text", &bytes);
    let output = run(&[&accesses, path("--blocks"), path("2")]);
    assert!(output.status.success(), "{}", told(&output));
    assert!(!told(&output).contains("refused"), "{}", told(&output));
    assert_eq!(printed(&output).lines().nth(1), Some("▌ ▌▌ ▌"));
}

#[test]
fn an_odd_last_byte_is_told_and_ignored() {
    let mut bytes = EXAMPLE.to_vec();
    bytes.push(0x21);
    let output = run(&[&with("odd", &bytes)]);
    assert!(output.status.success());
    assert!(told(&output).contains("the last byte has no partner and is ignored"));
    assert!(!told(&output).contains("refused"));
}

#[test]
fn a_refused_draw_is_told_and_writes_nothing() {
    let png = file("never.png");
    let output = run(&[&with("empty", &[]), path("--png"), &png]);
    assert_fails(
        &output,
        3,
        "the page cannot be drawn: refusal 8: origin YOR below 8",
    );
    assert!(!png.exists());
    for tgs in [0x40, 0x80, 0xE0] {
        let bytes = [0x21, 0x08, 0x28, 0x87, 0x21, tgs, 0x28, 0x81];
        let output = run(&[&with("not-built", &bytes)]);
        assert_fails(&output, 3, "the page cannot be drawn: refusal 7: TGS bit 7");
    }
}

#[test]
fn a_file_that_cannot_be_read_is_told() {
    let output = run(&[path("no-such-file")]);
    assert_fails(&output, 1, "no-such-file cannot be read");
    let output = run(&[path(env!("CARGO_TARGET_TMPDIR"))]);
    assert_fails(&output, 1, "cannot be read");
    let accesses = with("readable", &EXAMPLE);
    let output = run(&[&accesses, path("--rom"), path("no-such-rom")]);
    assert_fails(&output, 1, "no-such-rom cannot be read");
}

#[test]
fn a_rom_of_a_wrong_length_is_told() {
    let accesses = with("right", &EXAMPLE);
    for length in [0, 6_399, 6_401] {
        let rom = with("wrong.rom", &vec![0; length]);
        let output = run(&[&accesses, path("--rom"), &rom]);
        let message = format!("wrong.rom has {length} bytes, and the ROM of an EF9345 has 6400");
        assert_fails(&output, 1, &message);
    }
    for length in [3_839, 3_841, 6_400] {
        let rom = with("wrong-3840.rom", &vec![0; length]);
        let output = run(&[
            &accesses,
            path("--part"),
            path("ts9347"),
            path("--rom"),
            &rom,
        ]);
        let message =
            format!("wrong-3840.rom has {length} bytes, and the ROM of a TS9347 has 3840");
        assert_fails(&output, 1, &message);
    }
}

#[test]
fn a_png_that_cannot_be_written_is_told() {
    let accesses = with("unwritten", &EXAMPLE);
    let png = file("no-such-folder").join("some.png");
    let output = run(&[&accesses, path("--png"), &png]);
    assert_fails(&output, 1, "some.png cannot be written");
}

#[test]
fn a_wrong_command_line_is_told() {
    for (words, message) in [
        (&[][..], "the file of accesses is not named"),
        (&["a", "b"], "the file of accesses is given twice"),
        (&["a", "--fast"], "there is no flag --fast"),
        (&["a", "--phase", "2"], "the phase is 0 or 1, and not 2"),
        (&["a", "--phase"], "--phase is the last word"),
        (
            &["a", "--steps", "-1"],
            "the steps are a number from 0 on, and not -1",
        ),
        (
            &["a", "--steps", "many"],
            "the steps are a number from 0 on, and not many",
        ),
        (&["a", "--steps"], "--steps is the last word"),
        (
            &["a", "--steps", "1", "--steps", "2"],
            "--steps is given twice",
        ),
        (
            &["a", "--blocks", "4"],
            "refusal 12: an EF9345 has 2, 8 or 16 blocks, and not 4",
        ),
        (
            &["a", "--blocks", "258"],
            "refusal 12: an EF9345 has 2, 8 or 16 blocks, and not 258",
        ),
        (
            &["a", "--blocks", "many"],
            "refusal 12: an EF9345 has 2, 8 or 16 blocks, and not many",
        ),
        (
            &["a", "--part", "ef9345", "--blocks", "32"],
            "refusal 12: an EF9345 has 2, 8 or 16 blocks, and not 32",
        ),
        (
            &["a", "--part", "ts9347", "--blocks", "16"],
            "refusal 12: a TS9347 has 32 blocks, and not 16",
        ),
        (
            &["a", "--blocks", "16", "--part", "ts9347"],
            "refusal 12: a TS9347 has 32 blocks, and not 16",
        ),
        (
            &["a", "--part", "ts9348", "--blocks", "16"],
            "refusal 14: the part is ef9345 or ts9347, and not ts9348",
        ),
        (&["a", "--part"], "--part is the last word"),
        (
            &["a", "--part", "ef9345", "--part", "ts9347"],
            "--part is given twice",
        ),
        (&["a", "--blocks"], "--blocks is the last word"),
        (
            &["a", "--blocks", "2", "--blocks", "8"],
            "--blocks is given twice",
        ),
        (&["a", "--rom"], "--rom is the last word"),
        (&["a", "--png", "b", "--png", "c"], "--png is given twice"),
        (
            &["a", "--plain", "--colour"],
            "--plain or --colour is given twice",
        ),
    ] {
        let words: Vec<&Path> = words.iter().map(|word| path(word)).collect();
        let output = run(&words);
        assert_fails(&output, 2, message);
        assert!(told(&output).contains("snapshot --help"));
    }
}

#[test]
fn help_is_printed() {
    let output = run(&[path("--help")]);
    assert!(output.status.success());
    for flag in [
        "--rom", "--png", "--phase", "--steps", "--part", "--blocks", "--plain", "--colour",
        "--help",
    ] {
        assert!(printed(&output).contains(flag));
    }
}

/// What reads the text may have seen enough.
#[test]
fn a_closed_standard_output_is_no_failure() {
    let mut child = command()
        .arg(with("closed", &to_bytes(&page())))
        .arg("--colour")
        .stdout(Stdio::piped())
        .stderr(Stdio::piped())
        .spawn()
        .expect("the program runs");
    drop(child.stdout.take());
    let output = child.wait_with_output().expect("it ends");
    assert!(output.status.success(), "{}", told(&output));
}
