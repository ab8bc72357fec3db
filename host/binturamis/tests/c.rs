//! The C interface as C sees it: the examples of `examples/` compile without a warning, link with the
//! archive and print what is expected; the header is C and C++ by itself; its constants are this
//! package's.

use std::fs;
use std::path::{Path, PathBuf};
use std::process::Command;

use binturamis::{Board, Part, Refusal, State, STATE_BYTES};

/// Where `make library` leaves the archive and the header.
const LIBRARY: &str = env!("BINTURAMIS_LIBRARY");

const WARNINGS: [&str; 4] = ["-Wall", "-Wextra", "-Werror", "-pedantic"];

fn top() -> PathBuf {
    Path::new(env!("CARGO_MANIFEST_DIR")).join("../..")
}

fn read(file: PathBuf) -> Result<String, String> {
    fs::read_to_string(&file).map_err(|error| format!("{}: {error}", file.display()))
}

/// What a command prints to standard output. One that fails has said why.
fn printed(command: &mut Command) -> Result<String, String> {
    let output = command
        .output()
        .map_err(|error| format!("{command:?}: {error}"))?;
    if !output.status.success() {
        let said = String::from_utf8_lossy(&output.stderr);
        return Err(format!("{command:?}, {}: {said}", output.status));
    }
    String::from_utf8(output.stdout).map_err(|error| error.to_string())
}

/// The compiler for a language.
fn compiler(language: &str) -> Result<Command, String> {
    let script = top().join("host/bridge/compiler");
    let name = printed(Command::new(script).arg(language))?;
    Ok(Command::new(name.trim_end()))
}

/// The command that runs a program for x86-64: under the emulator where the library has one.
fn runner(program: &Path) -> Command {
    let emulator = Path::new(LIBRARY).join("emulator");
    if emulator.exists() {
        let mut command = Command::new(emulator);
        command.arg(program);
        command
    } else {
        Command::new(program)
    }
}

/// What a C program over the library prints; one that ends with another number than 0 has failed.
fn run(source: &Path, name: &str) -> Result<String, String> {
    let program = Path::new(env!("CARGO_TARGET_TMPDIR")).join(name);
    let mut compile = compiler("c")?;
    compile
        .arg("-std=c11")
        .args(WARNINGS)
        .args(["-static", "-I", LIBRARY])
        .arg(source)
        .arg(Path::new(LIBRARY).join("libbinturamis.a"))
        .arg("-o")
        .arg(&program);
    printed(&mut compile)?;
    printed(&mut runner(&program))
}

/// The same, of a program that stands here.
fn run_text(text: &str, name: &str) -> Result<String, String> {
    let source = Path::new(env!("CARGO_TARGET_TMPDIR")).join(format!("{name}.c"));
    fs::write(&source, text).map_err(|error| error.to_string())?;
    run(&source, name)
}

#[test]
fn the_example_prints_what_is_expected() -> Result<(), String> {
    let output = run(&top().join("examples/panel.c"), "panel")?;
    assert_eq!(output, read(top().join("examples/panel.expected"))?);
    let of_the_rules = read(top().join("crates/panel/stdout"))?;
    assert!(output.starts_with(&of_the_rules), "{output}");
    Ok(())
}

#[test]
fn the_example_of_a_ts9347_prints_what_is_expected() -> Result<(), String> {
    let output = run(&top().join("examples/ts9347.c"), "ts9347")?;
    assert_eq!(output, read(top().join("examples/ts9347.expected"))?);
    Ok(())
}

#[test]
fn the_example_of_a_scroll_prints_what_is_expected() -> Result<(), String> {
    let output = run(&top().join("examples/scroll.c"), "scroll")?;
    assert_eq!(output, read(top().join("examples/scroll.expected"))?);
    Ok(())
}

/// Ends with 0 if the header takes an answer apart as it says: the number, and a value of 16 bits.
const TAKEN_APART: &str = r#"
#include "binturamis.h"

int main(void)
{
    uint32_t answer = 65536u * BINTURAMIS_WRONG_PHASE + 0xABCDu;
    if (binturamis_number(answer) != BINTURAMIS_WRONG_PHASE)
        return 1;
    return binturamis_value(answer) != 0xABCDu;
}
"#;

#[test]
fn an_answer_is_taken_apart() -> Result<(), String> {
    run_text(TAKEN_APART, "taken_apart")?;
    Ok(())
}

/// A page of 80 columns by the header's names alone: a mosaic in the last position of row 1, red on
/// blue. The picture of 40 columns is refused before it, and lent once more after it.
const EIGHTY: &str = r#"
#include <stdio.h>

#include "binturamis.h"

static binturamis_processor p;
static uint8_t memory[BINTURAMIS_MEMORY_BYTES], rom[BINTURAMIS_ROM_BYTES];
static uint8_t forty[BINTURAMIS_PICTURE_BYTES], eighty[BINTURAMIS_80_PICTURE_BYTES];

static void put(uint8_t address, uint8_t value)
{
    printf("%u", (unsigned)binturamis_write(&p, memory, sizeof memory, address, value));
}

static void put_indirect(uint8_t r, uint8_t value)
{
    put(BINTURAMIS_R1, value);
    put(BINTURAMIS_R0 + BINTURAMIS_EXECUTE, BINTURAMIS_IND + r);
}

static void draw(uint8_t *picture, size_t length)
{
    uint32_t answer = binturamis_draw(&p, memory, sizeof memory, rom, sizeof rom, picture, length);
    printf(" %u %u\n", (unsigned)binturamis_number(answer), (unsigned)binturamis_value(answer));
}

int main(void)
{
    binturamis_power_up(&p);
    put_indirect(BINTURAMIS_TGS, BINTURAMIS_TGS_80);
    put_indirect(BINTURAMIS_MAT, BINTURAMIS_BLUE);
    put_indirect(BINTURAMIS_DOR, BINTURAMIS_RED << 4);
    put_indirect(BINTURAMIS_ROR, 8);
    put(BINTURAMIS_R6, 8);
    put(BINTURAMIS_R7, 0x80 + (BINTURAMIS_80_COLUMNS - 1) / 2);
    put(BINTURAMIS_R3, 0x11);
    put(BINTURAMIS_R0, BINTURAMIS_KRL + BINTURAMIS_INCREMENT);
    put(BINTURAMIS_R1 + BINTURAMIS_EXECUTE, 0x80 + 0x01);
    draw(forty, sizeof forty);
    draw(eighty, sizeof eighty);
    const uint8_t *line = eighty + BINTURAMIS_80_ROW_BYTES + BINTURAMIS_80_LINE_BYTES;
    for (unsigned byte = 4; byte > 0; byte--)
        printf("%02X", line[BINTURAMIS_80_LINE_BYTES - byte]);
    put_indirect(BINTURAMIS_TGS, 0);
    draw(forty, sizeof forty);
    return 0;
}
"#;

#[test]
fn a_page_of_80_columns_is_drawn_by_the_headers_names() -> Result<(), String> {
    let output = run_text(EIGHTY, "eighty")?;
    assert_eq!(output, "0000000000000 6 0\n 0 25\n4411414400 0 25\n");
    Ok(())
}

/// The boards by the header's names: power-up of each, of two that there are not and of a part that there is
/// not, with the part and the memory that the state tells; then OCT to a byte that is fitted and to one that
/// is not, KRF, and a memory of another length.
const BOARDS: &str = r#"
#include <stdio.h>

#include "binturamis.h"

static binturamis_processor p;
static uint8_t memory[BINTURAMIS_TS9347_MEMORY_BYTES];
static size_t length;

static void put(uint8_t address, uint8_t value)
{
    printf(" %u", (unsigned)binturamis_number(binturamis_write(&p, memory, length, address, value)));
}

static void begin(uint8_t part, uint8_t blocks)
{
    uint8_t state[BINTURAMIS_STATE_BYTES];
    uint32_t answer = binturamis_power_up_board(&p, part, blocks);
    binturamis_state(&p, state);
    length = (size_t)BINTURAMIS_BLOCK_BYTES * state[BINTURAMIS_STATE_BLOCKS];
    printf("%u %u:", (unsigned)binturamis_number(answer), (unsigned)binturamis_value(answer));
    printf(" %u %u:", (unsigned)state[BINTURAMIS_STATE_PART], (unsigned)length);
}

static void try_board(uint8_t part, uint8_t blocks)
{
    begin(part, blocks);
    put(BINTURAMIS_R0, BINTURAMIS_OCT);
    put(BINTURAMIS_R7, 0x80); /* block 1 */
    put(BINTURAMIS_R1 + BINTURAMIS_EXECUTE, 0x41);
    put(BINTURAMIS_R6, 0x80); /* block 9, or 17 of a TS9347 */
    put(BINTURAMIS_R1 + BINTURAMIS_EXECUTE, 0x42);
    put(BINTURAMIS_R6, 0x00);
    put(BINTURAMIS_R0 + BINTURAMIS_EXECUTE, BINTURAMIS_KRF);
    length = length == BINTURAMIS_MEMORY_BYTES ? 8 * BINTURAMIS_BLOCK_BYTES : BINTURAMIS_MEMORY_BYTES;
    put(BINTURAMIS_R1, 0);
    printf("\n");
}

int main(void)
{
    try_board(BINTURAMIS_EF9345, BINTURAMIS_BOARD_2);
    try_board(BINTURAMIS_EF9345, BINTURAMIS_BOARD_8);
    try_board(BINTURAMIS_EF9345, BINTURAMIS_BOARD_16);
    try_board(BINTURAMIS_TS9347, BINTURAMIS_BOARD_32);
    printf("%u\n", (unsigned)memory[17 * BINTURAMIS_BLOCK_BYTES]);
    try_board(BINTURAMIS_EF9345, BINTURAMIS_BOARD_32);
    try_board(BINTURAMIS_TS9347, BINTURAMIS_BOARD_16);
    try_board(BINTURAMIS_TS9347 + 1, BINTURAMIS_BOARD_32);
    return 0;
}
"#;

#[test]
fn the_boards_are_there_by_the_headers_names() -> Result<(), String> {
    let output = run_text(BOARDS, "boards")?;
    let wanted = [
        "0 0: 0 2048: 0 0 0 0 11 0 11 1\n",
        "0 0: 0 8192: 0 0 0 0 11 0 0 1\n",
        "0 0: 0 16384: 0 0 0 0 0 0 0 1\n",
        "0 0: 1 32768: 0 0 0 0 0 0 0 1\n",
        "66\n",
        "12 0: 0 16384: 0 0 0 0 0 0 0 1\n",
        "12 0: 0 16384: 0 0 0 0 0 0 0 1\n",
        "14 0: 0 16384: 0 0 0 0 0 0 0 1\n",
    ];
    assert_eq!(output, wanted.concat());
    Ok(())
}

/// The moves by the header's names: each of the twelve with one step, by the bytes that it has moved and whether it
/// goes on; then what is refused while one runs, and the NOP that ends it.
const MOVES: &str = r#"
#include <stdio.h>
#include <string.h>

#include "binturamis.h"

static binturamis_processor p;
static uint8_t memory[BINTURAMIS_MEMORY_BYTES];

static unsigned put(uint8_t address, uint8_t value)
{
    return (unsigned)binturamis_number(binturamis_write(&p, memory, sizeof memory, address, value));
}

static unsigned is_busy(void)
{
    return (binturamis_read(&p, memory, sizeof memory, BINTURAMIS_R0) & BINTURAMIS_STATUS_BUSY) != 0;
}

static void step(size_t length)
{
    printf(" %u", (unsigned)binturamis_step(&p, memory, length));
}

/* From X 39 and Y 0, which has 1, 2 and 3 in the three blocks, to X 0 and Y 8. */
static void try_move(uint8_t command, uint8_t from, uint8_t stop)
{
    const uint8_t is_from_main = from == BINTURAMIS_FROM_MAIN;
    memset(memory, 0, sizeof memory);
    for (unsigned block = 0; block < 3; block++)
        memory[BINTURAMIS_BLOCK_BYTES * block + 39] = (uint8_t)(block + 1);
    binturamis_power_up(&p);
    put(is_from_main ? BINTURAMIS_R7 : BINTURAMIS_R5, 39);
    put(is_from_main ? BINTURAMIS_R4 : BINTURAMIS_R6, 8);
    printf("%02X %u", (unsigned)(command + from + stop), put(BINTURAMIS_R0 + BINTURAMIS_EXECUTE, (uint8_t)(command + from + stop)));
    printf(" %u", is_busy());
    printf(" %u", put(BINTURAMIS_R1, 0));
    step(sizeof memory);
    printf(" %u:", is_busy());
    for (unsigned block = 0; block < 3; block++)
        printf(" %u", (unsigned)memory[BINTURAMIS_BLOCK_BYTES * block + 256]);
    printf("\n");
}

int main(void)
{
    static const uint8_t commands[] = {BINTURAMIS_MVB, BINTURAMIS_MVD, BINTURAMIS_MVT};
    for (unsigned i = 0; i < 3; i++) {
        try_move(commands[i], BINTURAMIS_FROM_MAIN, BINTURAMIS_STOP);
        try_move(commands[i], BINTURAMIS_FROM_MAIN, BINTURAMIS_NO_STOP);
        try_move(commands[i], BINTURAMIS_FROM_AUXILIARY, BINTURAMIS_STOP);
        try_move(commands[i], BINTURAMIS_FROM_AUXILIARY, BINTURAMIS_NO_STOP);
    }
    put(BINTURAMIS_R0 + BINTURAMIS_EXECUTE, BINTURAMIS_NOP);
    printf("%u", is_busy());
    step(sizeof memory - 1);
    step(sizeof memory);
    printf("\n");
    return 0;
}
"#;

#[test]
fn the_moves_are_there_by_the_headers_names() -> Result<(), String> {
    let output = run_text(MOVES, "moves")?;
    // The byte, its answer, busy, what a write gets, the step's answer, busy after it, and the bytes moved.
    let wanted = [
        "D5 0 1 10 0 0: 1 0 0\n",
        "D6 0 1 10 0 1: 1 0 0\n",
        "D9 0 1 10 0 0: 1 0 0\n",
        "DA 0 1 10 0 1: 1 0 0\n",
        "E5 0 1 10 0 0: 1 2 0\n",
        "E6 0 1 10 0 1: 1 2 0\n",
        "E9 0 1 10 0 0: 1 2 0\n",
        "EA 0 1 10 0 1: 1 2 0\n",
        "F5 0 1 10 0 0: 1 2 3\n",
        "F6 0 1 10 0 1: 1 2 3\n",
        "F9 0 1 10 0 0: 1 2 3\n",
        "FA 0 1 10 0 1: 1 2 3\n",
        "0 65536 0\n",
    ];
    assert_eq!(output, wanted.concat());
    Ok(())
}

#[test]
fn the_header_is_c_and_cpp_by_itself() -> Result<(), String> {
    let header = top().join("include/binturamis.h");
    for (language, standard) in [("c", "c11"), ("c++", "c++11"), ("c++", "c++17")] {
        let mut compile = compiler(language)?;
        compile
            .args(["-x", language, "-fsyntax-only"])
            .arg(format!("-std={standard}"))
            .args(WARNINGS)
            .arg(&header);
        printed(&mut compile)?;
    }
    Ok(())
}

#[test]
fn the_library_has_the_header_of_the_repository() -> Result<(), String> {
    let (ours, left) = (
        top().join("include/binturamis.h"),
        Path::new(LIBRARY).join("binturamis.h"),
    );
    assert!(read(ours)? == read(left)?, "run `make library`");
    Ok(())
}

/// The number that the header gives to a name.
fn constant(header: &str, name: &str) -> usize {
    let define = format!("#define BINTURAMIS_{name} ");
    let line = header.lines().find_map(|line| line.strip_prefix(&define));
    let word = line.and_then(|rest| rest.split_whitespace().next());
    let digits = word.unwrap_or_else(|| panic!("the header has no {name}"));
    let digits = digits.trim_end_matches('u');
    let number = match digits.strip_prefix("0x") {
        Some(hex) => usize::from_str_radix(hex, 16),
        None => digits.parse(),
    };
    number.unwrap_or_else(|error| panic!("{name} is {digits}: {error}"))
}

#[test]
fn the_headers_sizes_are_this_packages() -> Result<(), String> {
    let header = read(top().join("include/binturamis.h"))?;
    for (name, size) in [
        ("PROCESSOR_BYTES", binturamis::PROCESSOR_BYTES),
        ("MEMORY_BYTES", binturamis::MEMORY_BYTES),
        ("BLOCK_BYTES", binturamis::BLOCK_BYTES),
        ("BOARD_2", usize::from(Board::Two.blocks())),
        ("BOARD_8", usize::from(Board::Eight.blocks())),
        ("BOARD_16", usize::from(Board::Sixteen.blocks())),
        ("BOARD_32", usize::from(Board::ThirtyTwo.blocks())),
        ("EF9345", usize::from(Part::Ef9345.number())),
        ("TS9347", usize::from(Part::Ts9347.number())),
        ("TS9347_MEMORY_BYTES", binturamis::TS9347_MEMORY_BYTES),
        ("TS9347_ROM_BYTES", binturamis::TS9347_ROM_BYTES),
        ("ROM_BYTES", binturamis::ROM_BYTES),
        ("PICTURE_BYTES", binturamis::PICTURE_BYTES),
        ("STATE_BYTES", STATE_BYTES),
        ("ROWS", binturamis::ROWS),
        ("COLUMNS", binturamis::COLUMNS),
        ("ROW_BYTES", binturamis::ROW_BYTES),
        ("LINE_BYTES", binturamis::LINE_BYTES),
        ("80_COLUMNS", binturamis::COLUMNS_80),
        ("80_PICTURE_BYTES", binturamis::PICTURE_BYTES_80),
        ("80_ROW_BYTES", binturamis::ROW_BYTES_80),
        ("80_LINE_BYTES", binturamis::LINE_BYTES_80),
        ("TGS_80", usize::from(binturamis::TGS_80)),
        ("STATUS_BUSY", usize::from(binturamis::STATUS_BUSY)),
    ] {
        assert_eq!(constant(&header, name), size, "{name}");
    }
    Ok(())
}

#[test]
fn the_headers_refusals_are_this_packages() -> Result<(), String> {
    let header = read(top().join("include/binturamis.h"))?;
    assert_eq!(constant(&header, "ACCEPTED"), 0);
    let names = [
        "WRONG_MEMORY",
        "WRONG_ADDRESS",
        "NOT_LISTED",
        "BAD_POINTER",
        "WRONG_ROM",
        "WRONG_PICTURE",
        "NOT_BUILT",
        "LOW_ORIGIN",
        "WRONG_PHASE",
        "BUSY",
        "NOT_FITTED",
        "WRONG_BOARD",
        "UNKNOWN_PART",
    ];
    assert_eq!(names.len(), Refusal::ALL.len());
    for (name, refusal) in names.into_iter().zip(Refusal::ALL) {
        assert_eq!(constant(&header, name), usize::from(refusal.number()));
        assert_eq!(name.replace('_', "").to_lowercase(), spelled(refusal));
    }
    Ok(())
}

/// The name of a case, in small letters.
fn spelled(refusal: Refusal) -> String {
    format!("{refusal:?}").to_lowercase()
}

#[test]
fn the_headers_offsets_are_this_packages() -> Result<(), String> {
    let header = read(top().join("include/binturamis.h"))?;
    let mut bytes = [0; STATE_BYTES];
    for (at, byte) in (0..).zip(&mut bytes[..15]) {
        *byte = at;
    }
    bytes[15 + 3] = 1;
    (bytes[40], bytes[41]) = (40, 41);
    let state = State::of_bytes(&bytes);
    for (name, byte) in [
        ("R1", state.r1),
        ("R2", state.r2),
        ("R3", state.r3),
        ("R4", state.r4),
        ("R5", state.r5),
        ("R6", state.r6),
        ("R7", state.r7),
        ("COMMAND", state.command),
        ("STATUS", state.status),
        ("TGS", state.tgs),
        ("MAT", state.mat),
        ("PAT", state.pat),
        ("DOR", state.dor),
        ("ROR", state.ror),
        ("PHASE", state.phase),
        ("PART", state.part),
        ("BLOCKS", state.blocks),
    ] {
        let offset = constant(&header, &format!("STATE_{name}"));
        assert_eq!(offset, usize::from(byte), "{name}");
    }
    let row = bytes.iter().rposition(|byte| *byte == 1).unwrap_or(0);
    assert_eq!(constant(&header, "STATE_MARKS") + 3, row);
    assert_eq!(state.marks.iter().position(|mark| *mark), Some(3));
    Ok(())
}
