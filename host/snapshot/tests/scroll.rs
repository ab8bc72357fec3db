//! The list of recipes that scrolls: every access is accepted before and after, each move ends with its row, the
//! rows of the list go up by one and no other is redrawn, and the second program draws the same.

#[path = "pages/checks.rs"]
mod checks;

use binturamis::{Board, Panel, Refusal, ROWS};
use snapshot::access::Access;
use snapshot::panel::{play, play_in_steps, Started};
use snapshot::scroll::{list, scrolled};

/// The rows of the list, and the row that says which recipes it shows.
const FIRST: usize = 6;
const LAST: usize = 20;
const POSITION: usize = 22;

fn rom() -> [u8; 6_400] {
    rom::demonstration().expect("the texts are right").0
}

fn panel(accesses: &[Access]) -> Panel {
    let mut panel = Panel::new(rom());
    let played = play(&mut panel, accesses);
    assert_eq!(played.refused, 0, "{:?}", played.first);
    assert_eq!(played.running, None);
    panel
}

/// The accesses of the scroll alone.
fn scroll() -> Vec<Access> {
    let (list, all) = (list(), scrolled());
    assert!(all.starts_with(&list), "the list comes first");
    all[list.len()..].to_vec()
}

/// The characters of a row of the screen.
fn text(panel: &Panel, row: usize) -> String {
    let place = |x: usize| second::address::place(x, row + 7, 0);
    let letter = |x: usize| match panel.memory()[1024 + place(x)] {
        0x00 | 0x10 => char::from(panel.memory()[place(x)]),
        _ => '|', // of G11, the rules
    };
    (0..40).map(letter).collect()
}

#[test]
fn every_access_is_accepted_and_every_row_drawn_once() {
    for accesses in [list(), scrolled()] {
        let mut panel = panel(&accesses);
        assert_eq!(panel.draw().expect("a right page").count(), 25);
        let picture = panel.picture().to_vec();
        assert_eq!(panel.draw().expect("a right page").count(), 0);
        assert!(panel.picture() == picture);
    }
}

#[test]
fn the_list_goes_up_by_one_row_and_no_other_row_is_redrawn() {
    let mut panel = panel(&list());
    panel.draw().expect("a right page");
    let before: Vec<Vec<u8>> = (0..ROWS).map(|row| panel.row(row).to_vec()).collect();
    assert_eq!(play(&mut panel, &scroll()).refused, 0);
    let redrawn = panel.draw().expect("a right page");
    assert!(redrawn.rows().eq((FIRST..=LAST).chain([POSITION])));
    for row in 0..ROWS {
        let has_moved = (FIRST..LAST).contains(&row) && panel.row(row) == before[row + 1];
        let has_stayed = panel.row(row) == before[row];
        match row {
            FIRST..LAST => assert!(has_moved && !has_stayed, "row {row}"),
            LAST | POSITION => assert!(!has_stayed, "row {row}"),
            _ => assert!(has_stayed, "row {row}"),
        }
    }
}

#[test]
fn the_recipes_are_the_next_ones() {
    let (before, after) = (panel(&list()), panel(&scrolled()));
    let first = "| 1 | Winter wheat | Fungicide A  | 200|";
    let second = "| 2 | Winter wheat | Fungicide B  | 150|";
    assert_eq!(text(&before, FIRST), first);
    assert_eq!(text(&before, FIRST + 1), second);
    assert_eq!(text(&after, FIRST), second);
    assert_eq!(text(&before, LAST), text(&after, LAST - 1));
    let last = "|16 | Sunflower    | Repellent F  | 700|";
    assert_eq!(text(&after, LAST), last);
    let position = |panel| text(panel, POSITION).trim().to_string();
    assert_eq!(position(&before), "Recipes  1 to 15 of 18");
    assert_eq!(position(&after), "Recipes  2 to 16 of 18");
}

/// With too few steps the first move does not end, and every access after it is refused.
#[test]
fn each_move_takes_forty_steps() {
    let count = scrolled().len();
    for limit in [0, 1, 39] {
        let mut panel = Panel::new(rom());
        let played = play_in_steps(&mut panel, &scrolled(), limit);
        let running = played.running.expect("a move runs");
        assert_eq!(running.steps, limit);
        assert!(running.number > list().len());
        assert_eq!(played.refused, count - running.number);
        let first = played.first.expect("one is refused");
        assert_eq!(
            (first.number, first.refusal),
            (running.number + 1, Refusal::Busy)
        );
        let Started { number, steps } = first.running.expect("it is refused for the move");
        assert_eq!((number, steps), (running.number, limit));
    }
    let mut panel = Panel::new(rom());
    let played = play_in_steps(&mut panel, &scrolled(), 40);
    assert_eq!((played.refused, played.running), (0, None));
}

#[test]
fn the_second_program_draws_the_same() {
    for accesses in [list(), scrolled()] {
        checks::the_second_program_draws_the_same(panel(&accesses), &accesses);
    }
}

#[test]
fn the_page_does_not_depend_on_what_memory_held() {
    for accesses in [list(), scrolled()] {
        checks::the_page_does_not_depend_on_what_memory_held(Board::Sixteen, &rom(), &accesses);
    }
}

#[test]
fn the_program_writes_the_accesses() {
    checks::the_program_writes_the_accesses(&["list"], &list());
    checks::the_program_writes_the_accesses(&["scroll"], &scrolled());
}
