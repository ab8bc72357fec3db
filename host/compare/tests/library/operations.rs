//! Sequences of operations: after each one the library answers and leaves what the second program
//! answers and leaves, whatever the bytes and the lengths of the buffers, in either mode and from one
//! to the other, on each of the four boards and from one to the other.

use compare::amount::at_least;
use compare::met::{Boards, InMode, Met};
use compare::trial::{Trial, OPERATIONS};
use second::Board;

/// Every number that is answered to anything at all, on each board.
const LEAST: usize = 300;

/// Compares so many operations of trials that begin on a board.
fn compare(met: &mut Boards, board: Board, operations: u64) {
    for seed in 0..operations.div_ceil(OPERATIONS) {
        let mut trial = Trial::new(seed, board);
        for _ in 0..OPERATIONS {
            met.look(&trial.step());
        }
    }
}

/// Fails where a number was met fewer times than `LEAST`. 13 is none, 10 none of the TS9347, which has no
/// move, and 11 none of a full board.
fn assert_every_number(met: &Met, board: Board) {
    for number in 0..=14 {
        let times = met.times(number);
        let never = match number {
            10 => board == Board::TS9347,
            11 => board.is_full(),
            _ => number == 13,
        };
        assert!(never == (times == 0), "number {number}: {times} times");
        let is_met = never || times >= LEAST;
        assert!(is_met, "{board:?}, number {number}: {times} times");
    }
}

#[test]
fn every_operation_is_the_second_programs() {
    let operations = at_least("BINTURAMIS_OPERATIONS", 200_000);
    let mut boards = Boards::default();
    compare(&mut boards, Board::SIXTEEN, operations);
    let met = boards.on(Board::SIXTEEN);
    println!("{met}");
    assert!(met.operations() as u64 > operations * 9 / 10);
    assert_every_number(met, Board::SIXTEEN);
    met.moves.assert_codes(Board::SIXTEEN, 50);
    met.moves.assert_varied(Board::SIXTEEN, 15);
    met.moves.assert_refused(LEAST);
    met.assert_lx(1_000);
    met.assert_short_palettes(1_000);
    assert_varied(&met.forty);
    assert_varied(&met.eighty);
    met.neither
        .assert_every_number_in_no_mode(Board::SIXTEEN, 20);
    met.fitted.assert_other_boards(100);
}

fn assert_varied(met: &InMode) {
    met.assert_every_number(Board::SIXTEEN, 100);
    met.assert_phases(10_000);
    met.krl.assert_varied(Board::SIXTEEN, 30);
    assert!(met.stores > 5_000, "{met}");
    assert!(met.unseen_stores > 500, "{met}");
    assert!(met.partial_draws() > 1_000, "{met}");
    assert!(met.mats > 100, "{met}");
    assert!(met.marking_turns > 100, "{met}");
    assert!(met.other_pictures > 200, "{met}");
    assert!(met.other_modes > 100, "{met}");
    assert!(met.other_lengths > 100, "{met}");
}

/// What is asked of a smaller board, whose pages are these.
fn compare_smaller(board: Board, pages: &[&str]) {
    let operations = at_least("BINTURAMIS_OPERATIONS", 180_000);
    let mut boards = Boards::default();
    compare(&mut boards, board, operations);
    let met = boards.on(board);
    println!("{met}");
    assert!(met.operations() as u64 > operations * 9 / 10);
    assert_every_number(met, board);
    met.moves.assert_codes(board, 20);
    met.moves.assert_varied(board, 8);
    met.moves.assert_refused(LEAST);
    met.fitted.assert_forms(board, 15);
    met.fitted.assert_pages(pages, 100);
    met.fitted.assert_other_boards(100);
    for in_mode in [&met.forty, &met.eighty] {
        in_mode.assert_every_number(board, 20);
        in_mode.krl.assert_varied(board, 10);
        assert!(in_mode.stores > 1_000, "{in_mode}");
        assert!(in_mode.unseen_stores > 100, "{in_mode}");
        assert!(in_mode.partial_draws() > 500, "{in_mode}");
        assert!(in_mode.marking_turns > 20, "{in_mode}");
        assert!(in_mode.other_pictures > 100, "{in_mode}");
    }
    met.neither.assert_every_number_in_no_mode(board, 5);
}

#[test]
fn every_operation_on_2_blocks_is_the_second_programs() {
    let pages = ["without their third block", "with their third block alone"];
    compare_smaller(Board::TWO, &pages);
}

#[test]
fn every_operation_on_8_blocks_is_the_second_programs() {
    compare_smaller(Board::EIGHT, &["whole"]);
}

#[test]
fn every_operation_on_the_ts9347_is_the_second_programs() {
    let operations = at_least("BINTURAMIS_OPERATIONS", 140_000);
    let mut boards = Boards::default();
    compare(&mut boards, Board::TS9347, operations);
    let met = boards.on(Board::TS9347);
    println!("{met}");
    assert!(met.operations() as u64 > operations * 9 / 10);
    assert_every_number(met, Board::TS9347);
    met.assert_lx(1_000);
    met.moves.assert_none(40);
    met.assert_types(10_000);
    met.blocks.assert_every_one(Board::TS9347, 30);
    met.fitted.assert_other_boards(100);
    let forty = &met.forty;
    forty.assert_every_number(Board::TS9347, 100);
    forty.assert_phases(10_000);
    forty.krl.assert_varied(Board::TS9347, 100);
    assert!(forty.stores > 5_000, "{forty}");
    assert!(forty.unseen_stores > 500, "{forty}");
    assert!(forty.partial_draws() > 1_000, "{forty}");
    assert!(forty.mats > 100, "{forty}");
    assert!(forty.marking_turns > 100, "{forty}");
    assert!(forty.other_pictures > 200, "{forty}");
    // Pictures of 80 columns, which this part has not.
    assert!(forty.other_lengths > 100, "{forty}");
    assert_eq!(met.eighty.operations(), 0);
    met.neither.assert_every_number_in_no_mode(Board::TS9347, 5);
}
