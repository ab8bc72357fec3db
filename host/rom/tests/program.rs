//! The program `rom`: what it writes, and how it says that it cannot.

use std::fs;
use std::path::PathBuf;
use std::process::{Command, Output};

use rom::{demonstration, narrow, ts9347};

/// A file of this test in the folder that cargo keeps for tests.
fn file(name: &str) -> PathBuf {
    PathBuf::from(env!("CARGO_TARGET_TMPDIR")).join(format!("rom-{name}"))
}

fn run(words: &[&str]) -> Output {
    Command::new(env!("CARGO_BIN_EXE_rom"))
        .args(words)
        .output()
        .expect("the program runs")
}

fn told(output: &Output) -> String {
    String::from_utf8_lossy(&output.stderr).to_string()
}

#[test]
fn it_writes_the_demonstration_rom() {
    let written = file("demonstration.rom");
    let output = run(&[&written.to_string_lossy()]);
    assert!(output.status.success(), "{}", told(&output));
    let (rom, _) = demonstration().expect("the texts are right");
    assert_eq!(fs::read(written).expect("it was written"), rom);
}

#[test]
fn it_writes_the_narrow_rom() {
    let written = file("narrow.rom");
    let output = run(&["--narrow", &written.to_string_lossy()]);
    assert!(output.status.success(), "{}", told(&output));
    let (rom, _) = narrow().expect("the texts are right");
    assert_eq!(fs::read(written).expect("it was written"), rom);
}

#[test]
fn it_writes_the_rom_of_the_ts9347() {
    let written = file("ts9347.rom");
    let output = run(&["--ts9347", &written.to_string_lossy()]);
    assert!(output.status.success(), "{}", told(&output));
    let (rom, _) = ts9347::demonstration().expect("the texts are right");
    assert_eq!(fs::read(written).expect("it was written"), rom);
}

#[test]
fn it_writes_the_rom_of_the_texts_named() {
    let (text, written) = (file("right.txt"), file("right.rom"));
    fs::write(&text, format!("G0 00 all\n{}", "########\n".repeat(10))).expect("a text");
    let output = run(&[&written.to_string_lossy(), &text.to_string_lossy()]);
    assert!(output.status.success(), "{}", told(&output));
    let rom = fs::read(written).expect("it was written");
    assert_eq!(rom.len(), 6_400);
    assert_eq!(rom[..10], [0xFF; 10]);
    assert!(rom[10..].iter().all(|slice| *slice == 0));
}

#[test]
fn a_wrong_text_is_told_and_leaves_the_file() {
    let (text, written) = (file("wrong.txt"), file("wrong.rom"));
    fs::write(&text, "G7 00 all\n").expect("a text");
    fs::write(&written, "kept").expect("a file");
    let output = run(&[&written.to_string_lossy(), &text.to_string_lossy()]);
    assert_eq!(output.status.code(), Some(1));
    assert!(told(&output).contains("wrong.txt:1: `G7` is no set"));
    assert_eq!(fs::read(written).expect("it is there"), b"kept");
}

#[test]
fn a_missing_text_is_told() {
    let output = run(&[&file("never.rom").to_string_lossy(), "no-such-text.txt"]);
    assert_eq!(output.status.code(), Some(1));
    assert!(told(&output).contains("no-such-text.txt cannot be read"));
    assert!(!file("never.rom").exists());
}

#[test]
fn a_file_that_cannot_be_written_is_told() {
    let there = file("no-such-folder").join("some.rom");
    let output = run(&[&there.to_string_lossy()]);
    assert_eq!(output.status.code(), Some(1));
    assert!(told(&output).contains("some.rom cannot be written"));
}

#[test]
fn a_wrong_command_line_is_told() {
    for (words, wrong) in [
        (&[][..], "the file to write is not named"),
        (&["--narrow"], "the file to write is not named"),
        (&["--ts9347"], "the file to write is not named"),
        (&["--out", "some.rom"], "there is no flag --out"),
        (&["--narrow", "--out"], "there is no flag --out"),
        (&["some.rom", "--narrow"], "there is no flag --narrow"),
        (
            &["--ts9347", "--narrow", "some.rom"],
            "there is no flag --narrow",
        ),
        (
            &["--ts9347", "some.rom", "some.txt"],
            "--ts9347 takes no texts",
        ),
        (
            &["--narrow", "some.rom", "some.txt"],
            "--narrow takes no texts",
        ),
    ] {
        let output = run(words);
        assert_eq!(output.status.code(), Some(2));
        assert!(told(&output).contains(wrong), "{}", told(&output));
    }
}

#[test]
fn help_is_printed() {
    let output = run(&["--help"]);
    assert!(output.status.success());
    let printed = String::from_utf8_lossy(&output.stdout);
    for words in ["rom OUTPUT", "rom --narrow OUTPUT", "rom --ts9347 OUTPUT"] {
        assert!(printed.contains(words), "{words}");
    }
}
