//! What must hold of each demonstration page, whatever its width and its part.

use std::process::Command;

use binturamis::{Board, Panel};
use snapshot::access::{to_bytes, Access};
use snapshot::panel::STEPS;

/// The second program accepts every access, and has the memory and the picture of the panel that
/// the page was played to.
pub fn the_second_program_draws_the_same(mut panel: Panel, page: &[Access]) {
    panel.draw().expect("a right page");
    let mut second = second_program(panel.board());
    let mut memory = vec![0; panel.board().memory_bytes()];
    for access in page {
        let answer = second.write(&mut memory, access.address, access.value);
        assert_eq!(answer.number, 0, "{access:?}");
        finish(&mut second, &mut memory);
    }
    assert!(memory == panel.memory(), "the memories differ");
    assert!(
        second.fresh(&memory, panel.rom()) == panel.picture(),
        "the pictures differ"
    );
}

fn second_program(board: Board) -> second::Processor {
    let (second, answer) = second::Processor::power_up_board(board.part().number(), board.blocks());
    assert_eq!(answer.number, 0, "{board:?}");
    second
}

/// Lets a move that an access has started end with its row.
fn finish(second: &mut second::Processor, memory: &mut [u8]) {
    for _ in 0..STEPS {
        second.step(memory);
    }
}

/// The page leaves nothing to what memory held before: it draws the same from bytes of any kind.
pub fn the_page_does_not_depend_on_what_memory_held(board: Board, rom: &[u8], page: &[Access]) {
    let picture = |fill: u8| {
        let mut second = second_program(board);
        let mut memory = vec![fill; board.memory_bytes()];
        for access in page {
            second.write(&mut memory, access.address, access.value);
            finish(&mut second, &mut memory);
        }
        second.fresh(&memory, rom)
    };
    assert!(picture(0x00) == picture(0xFF));
    assert!(picture(0x00) == picture(0xC8));
}

/// The program, called with the columns and, where it is not an EF9345, the part, writes the accesses of the
/// page.
pub fn the_program_writes_the_accesses(words: &[&str], page: &[Access]) {
    let program = env!("CARGO_BIN_EXE_demonstration");
    let output = Command::new(program).args(words).output();
    let output = output.expect("the program runs");
    assert!(output.status.success());
    assert_eq!(output.stdout, to_bytes(page));
}
