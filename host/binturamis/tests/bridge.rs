//! The program `bridge`, which carries out calls where the library cannot be linked: it greets,
//! ends with its input, and says what is wrong with a request before it ends.
#![cfg(not(target_arch = "x86_64"))]

use std::io::Write;
use std::path::Path;
use std::process::{Command, Output, Stdio};

const GREETING: &[u8] = b"binturamis bridge 5\n";

/// What the bridge does with these bytes and no more.
fn given(bytes: &[u8]) -> Output {
    let library = Path::new(env!("BINTURAMIS_LIBRARY"));
    let mut child = Command::new(library.join("emulator"))
        .arg(library.join("bridge"))
        .stdin(Stdio::piped())
        .stdout(Stdio::piped())
        .stderr(Stdio::piped())
        .spawn()
        .expect("the bridge starts");
    let mut input = child.stdin.take().expect("standard input is a pipe");
    input.write_all(bytes).expect("the bridge reads");
    drop(input);
    child.wait_with_output().expect("the bridge ends")
}

/// Power-up, as a request.
fn power_up() -> Vec<u8> {
    [&b"P\0\0"[..], &[0; 64]].concat()
}

/// Power-up of a board, as a request.
fn power_up_board(part: u8, blocks: u8) -> Vec<u8> {
    [&[b'B', part, blocks][..], &[0xAA; 64]].concat()
}

/// A phase change with a memory of this length, in which so many bytes are replaced from a start
/// on.
fn turn(length: u64, start: u64, count: u64) -> Vec<u8> {
    let numbers = [length, start, count].map(u64::to_le_bytes).concat();
    [&b"T\0\0"[..], &[0; 64], &numbers].concat()
}

/// A step of a processor that is idle, with a memory of so many zeros.
fn step(length: u64) -> Vec<u8> {
    let numbers = [length, 0, 0].map(u64::to_le_bytes).concat();
    [&b"M\0\0"[..], &[0; 64], &numbers].concat()
}

#[test]
fn it_ends_well_with_its_input() {
    let ended = given(&[]);
    assert!(ended.status.success());
    assert_eq!(ended.stdout, GREETING);
    let answered = given(&power_up());
    assert!(answered.status.success());
    // The 64 bytes, the answered number and the 48 bytes of the state.
    assert_eq!(answered.stdout.len(), GREETING.len() + 64 + 4 + 48);
    assert_eq!(answered.stdout[GREETING.len() + 64..][..4], [0; 4]);
}

#[test]
fn it_powers_boards_up() {
    for (part, blocks, number, left) in [
        (0, 2, 0, [0, 2]),
        (0, 8, 0, [0, 8]),
        (0, 16, 0, [0, 16]),
        (1, 32, 0, [1, 32]),
        (0, 9, 12, [0, 16]),
        (1, 16, 12, [0, 16]),
        (2, 32, 14, [0, 16]),
    ] {
        let answered = given(&power_up_board(part, blocks));
        assert!(answered.status.success());
        let answer = &answered.stdout[GREETING.len() + 64..];
        assert_eq!(answer[..4], [0, 0, number, 0]);
        assert_eq!(answer[4 + 40..][..2], left, "what the state tells");
        assert_eq!(answer.len(), 4 + 48);
    }
}

#[test]
fn it_steps() {
    for (length, number) in [(16_384, 0), (16_383, 1), (0, 1)] {
        let answered = given(&step(length));
        assert!(answered.status.success());
        let answer = &answered.stdout[GREETING.len() + 64..];
        assert_eq!(answer[..4], [0, 0, number, 0]);
        // The memory has no byte that the step has changed: a start and a count.
        assert_eq!(answer.len(), 4 + 48 + 16);
        assert_eq!(answer[4 + 48 + 8..], [0; 8]);
    }
}

#[test]
fn it_says_what_is_wrong_with_a_request() {
    let cut = |length: usize| [power_up(), power_up()[..length].to_vec()].concat();
    let mut of_no_call = power_up();
    of_no_call[0] = b'X';
    for (request, wrong) in [
        (cut(1), "a request was cut short"),
        (cut(66), "a request was cut short"),
        (turn(16_384, 0, 8), "a request was cut short"),
        (of_no_call, "a request has no call that there is"),
        (turn(8, 9, 0), "a request has bytes outside its buffer"),
        (turn(8, 8, 1), "a request has bytes outside its buffer"),
        (
            turn(8, 1, u64::MAX),
            "a request has bytes outside its buffer",
        ),
        (turn(u64::MAX, 0, 0), "a buffer is too long to be kept"),
        (turn(u64::MAX / 2, 0, 0), "a buffer is too long to be kept"),
    ] {
        let ended = given(&request);
        assert_eq!(ended.status.code(), Some(1), "{wrong}");
        let said = String::from_utf8_lossy(&ended.stderr);
        assert_eq!(said, format!("bridge: {wrong}\n"));
    }
}
