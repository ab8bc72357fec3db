//! The demonstration page of 40 columns of an EF9345: every access is accepted, the picture is kept, only the alarm flashes, and
//! the picture in the documents is the one that is drawn.

#[path = "pages/checks.rs"]
mod checks;
#[path = "pages/documents.rs"]
mod documents;

use std::process::Command;

use binturamis::{Board, Panel, ROWS, ROW_BYTES};
use snapshot::demonstration::page;
use snapshot::panel::play;

/// The rows of the alarm.
const ALARM: [usize; 2] = [20, 21];

fn panel() -> Panel {
    let (rom, _) = rom::demonstration().expect("the texts are right");
    let mut panel = Panel::new(rom);
    let played = play(&mut panel, &page());
    assert_eq!(played.refused, 0, "{:?}", played.first);
    assert_eq!(played.accesses, page().len());
    panel
}

#[test]
fn every_access_is_accepted_and_every_row_drawn_once() {
    let mut panel = panel();
    assert_eq!(panel.draw().expect("a right page").count(), 25);
    let picture = panel.picture().to_vec();
    assert_eq!(panel.draw().expect("a right page").count(), 0);
    assert!(panel.picture() == picture);
}

#[test]
fn the_phase_changes_the_alarm_alone() {
    let mut panel = panel();
    panel.draw().expect("a right page");
    let shown = panel.picture().to_vec();
    panel.turn(1).expect("a right phase");
    let redrawn = panel.draw().expect("a right page");
    assert!(redrawn.rows().eq(ALARM));
    let hidden = panel.picture().to_vec();
    for row in 0..ROWS {
        let bytes = ROW_BYTES * row..ROW_BYTES * (row + 1);
        let is_changed = shown[bytes.clone()] != hidden[bytes];
        assert_eq!(is_changed, ALARM.contains(&row), "row {row}");
    }
    // Nothing of the text is left: both rows are red.
    let alarm = ROW_BYTES * ALARM[0]..ROW_BYTES * (ALARM[1] + 1);
    assert!(hidden[alarm].iter().all(|pair| *pair == 0x11));
    panel.turn(0).expect("a right phase");
    assert_eq!(panel.draw().expect("a right page").count(), 2);
    assert!(panel.picture() == shown);
}

#[test]
fn the_second_program_draws_the_same() {
    checks::the_second_program_draws_the_same(panel(), &page());
}

#[test]
fn the_page_does_not_depend_on_what_memory_held() {
    let (rom, _) = rom::demonstration().expect("the texts are right");
    checks::the_page_does_not_depend_on_what_memory_held(Board::Sixteen, &rom, &page());
}

#[test]
fn the_picture_in_the_documents_is_the_one_drawn() {
    documents::the_picture_in_the_documents_is_the_one_drawn(panel(), "demo.png");
}

#[test]
fn the_program_writes_the_accesses() {
    checks::the_program_writes_the_accesses(&["40"], &page());
}

#[test]
fn another_word_is_told_what_there_is() {
    for words in [
        &[][..],
        &["41"],
        &["40", "80"],
        &["80", "ts9347"],
        &["list", "scroll"],
    ] {
        let program = env!("CARGO_BIN_EXE_demonstration");
        let output = Command::new(program).args(words).output();
        let output = output.expect("the program runs");
        assert_eq!(output.status.code(), Some(2));
        assert!(output.stdout.is_empty());
        let told = String::from_utf8_lossy(&output.stderr).to_string();
        assert_eq!(
            told,
            "usage: demonstration 40, demonstration 40 ts9347, demonstration 80, \
             demonstration list, or demonstration scroll\n"
        );
    }
}
