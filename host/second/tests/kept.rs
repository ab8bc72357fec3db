//! The kept picture equals the fresh one after every accepted draw of random sequences, in both modes
//! and from one mode to the other, on each of the four boards.

mod expected;

use expected::expected_marks;
use second::bench::Bench;
use second::half::{shows_lower, shows_right};
use second::operation::Operation;
use second::page::Page;
use second::random::Random;
use second::rules::PageRules;
use second::sequence::{Sequence, MOVES};
use second::set::Set;
use second::{Board, Mode};

/// What the sequences met in one mode, so that a tame generator is seen.
#[derive(Debug, Default)]
struct Drawn {
    accepted: usize,
    partial: usize,
    /// Draws of every row that were lent another picture of the same length.
    lent: usize,
    /// Draws that were lent a picture of this length for one of the other.
    from_other_mode: usize,
    phases: [usize; 2],
    /// By half their number, since they are even.
    first_blocks: [usize; 16],
    origins: [usize; 32],
}

#[derive(Debug, Default)]
struct Met {
    forty: Drawn,
    eighty: Drawn,
    refused: usize,
    /// Cells of 40 columns.
    quadrichrome: usize,
    /// Of the TS9347: its sets GOE and Q.
    goe: usize,
    q: usize,
    /// Lower halves of the sets Q.
    lower_q: usize,
    user: usize,
    flashing: usize,
    lower: usize,
    right: usize,
    /// Cells of 80 columns.
    mosaics: usize,
    underlined: usize,
    hidden: usize,
    negative: usize,
    numbers: [usize; 13],
    moves: Moves,
}

/// What they met of moves.
#[derive(Debug, Default)]
struct Moves {
    /// Steps by the code, from D5 on, of the move that ran.
    steps: [usize; 12],
    /// Steps that left a row marked which was not before, and those that changed a byte and did not.
    marking: usize,
    unseen: usize,
    /// Steps while nothing ran.
    idle: usize,
    /// Moves that a step has ended, and moves that a NOP has.
    stopped: usize,
    aborted: usize,
    /// Accepted draws while one ran.
    draws: usize,
}

impl Moves {
    fn look(&mut self, before: &Bench, operation: Operation, after: &Bench) {
        let (old, new) = (&before.processor, &after.processor);
        let ended = old.busy && !new.busy;
        match operation {
            Operation::Step if old.busy => {
                let code = MOVES.iter().position(|code| *code == old.registers[0]);
                self.steps[code.expect("a move runs")] += 1;
                self.stopped += usize::from(ended);
                let is_marking = old.marks != new.marks;
                self.marking += usize::from(is_marking);
                self.unseen += usize::from(before.memory != after.memory && !is_marking);
            }
            Operation::Step => self.idle += 1,
            Operation::Draw => self.draws += usize::from(old.busy && new.marks == [false; 25]),
            _ => self.aborted += usize::from(ended),
        }
    }

    /// Fails where something was met fewer times than `least`.
    fn assert_varied(&self, least: usize) {
        let counts = [self.marking, self.unseen, self.idle];
        let ends = [self.stopped, self.aborted, self.draws];
        let mut counts = self.steps.iter().chain(&counts).chain(&ends);
        assert!(counts.all(|count| *count >= least), "{self:?}");
    }
}

impl Met {
    fn drawn(&mut self, mode: Mode) -> &mut Drawn {
        match mode {
            Mode::Forty => &mut self.forty,
            Mode::Eighty => &mut self.eighty,
        }
    }
}

fn random_bench(sequence: &mut Sequence, seed: u64, board: Board) -> Bench {
    let mut random = Random::new(seed ^ 0xABCD);
    let mut bench = Bench::power_up_board(board);
    bench.memory = sequence.memory(board.blocks);
    bench.rom = random.bytes(board.part.rom());
    bench.picture = random.bytes(40_000);
    bench
}

fn check_accepted_draw(before: &Bench, after: &Bench, rows: u8) {
    let marks = before.processor.marks;
    assert_eq!(
        usize::from(rows),
        marks.iter().filter(|mark| **mark).count()
    );
    let mut expected = before.processor.clone();
    expected.marks = [false; 25];
    assert_eq!(after.processor, expected);
    assert_eq!(after.memory, before.memory);
    let length = after.picture.len() / 25;
    for row in 0..25 {
        let bytes = length * row..length * (row + 1);
        if !marks[row] {
            assert_eq!(after.picture[bytes.clone()], before.picture[bytes]);
        }
    }
    let fresh = after.processor.fresh(&after.memory, &after.rom);
    assert_eq!(
        after.picture, fresh,
        "the kept picture is not the fresh one"
    );
}

/// Counts what the page of an accepted draw shows.
fn look(met: &mut Met, bench: &Bench) {
    let processor = &bench.processor;
    let page = processor.page(&bench.memory);
    for row in 0..25 {
        match page.mode {
            Mode::Forty => look_at_cells(met, &page, row, processor.pat),
            Mode::Eighty => look_at_codes(met, &page, row, processor.pat, processor.phase),
        }
    }
    let drawn = met.drawn(page.mode);
    drawn.phases[usize::from(processor.phase)] += 1;
    drawn.first_blocks[processor.first_block() / 2] += 1;
    drawn.origins[usize::from(processor.ror % 32)] += 1;
}

fn look_at_cells(met: &mut Met, page: &Page, row: usize, pat: u8) {
    for column in 0..40 {
        let cell = page.cell(row, column);
        met.quadrichrome += usize::from(cell.is_quadrichrome());
        let is_q = cell.set() == Some(Set::Q);
        met.goe += usize::from(cell.set() == Some(Set::Goe));
        met.q += usize::from(is_q);
        met.lower_q += usize::from(is_q && shows_lower(page, row, column));
        met.user += usize::from(cell.b >> 6 == 2);
        met.flashing += usize::from(cell.is_flashing() && pat >= 0x40);
        met.lower += usize::from(shows_lower(page, row, column));
        met.right += usize::from(shows_right(page, row, column));
    }
}

fn look_at_codes(met: &mut Met, page: &Page, row: usize, pat: u8, phase: u8) {
    for code in page.codes(row) {
        met.mosaics += usize::from(code.is_mosaic());
        met.underlined += usize::from(code.is_underlined());
        met.negative += usize::from(code.negative() == 1);
        let flashes = code.is_flashing() && pat >= 0x40;
        met.hidden += usize::from(flashes && phase != code.negative());
    }
}

/// "Another picture may be lent whenever every row is marked, as after a mode change": one of the
/// other length where the mode asks for it, and in every second draw of all rows one of the same.
fn lend_other_picture(met: &mut Met, random: &mut Random, bench: &mut Bench) {
    let Some(mode) = bench.processor.mode() else {
        return;
    };
    let every_row = bench.processor.marks == [true; 25];
    if bench.picture.len() != mode.picture() {
        assert!(every_row, "a mode change marks every row");
        bench.picture = random.bytes(mode.picture());
        met.drawn(mode).from_other_mode += 1;
    } else if every_row && random.one_in(2) {
        bench.picture = random.bytes(mode.picture());
        met.drawn(mode).lent += 1;
    }
}

fn draw(met: &mut Met, random: &mut Random, bench: &mut Bench) {
    lend_other_picture(met, random, bench);
    let before = bench.clone();
    let answer = bench.draw();
    if answer.number == 0 {
        check_accepted_draw(&before, bench, answer.value);
        let mode = bench
            .processor
            .mode()
            .expect("a page that was drawn has a mode");
        met.drawn(mode).accepted += 1;
        met.drawn(mode).partial += usize::from((1..25).contains(&answer.value));
        look(met, bench);
    } else {
        assert_eq!(Some(answer.number), before.processor.page_refusal());
        assert_eq!(*bench, before);
        met.refused += 1;
    }
}

fn run(met: &mut Met, seed: u64, operations: usize, board: Board) {
    let mut random = Random::new(!seed);
    let mut sequence = Sequence::new(seed);
    let mut bench = random_bench(&mut sequence, seed, board);
    for _ in 0..operations {
        let operation = sequence.operation(&bench.processor, &bench.memory);
        let before = bench.clone();
        if operation == Operation::Draw {
            draw(met, &mut random, &mut bench);
        } else {
            let answer = bench.apply_with(&PageRules, operation);
            met.numbers[usize::from(answer.number)] += 1;
        }
        met.moves.look(&before, operation, &bench);
        if bench.processor.page_refusal().is_some() {
            assert_eq!(bench.processor.marks, [true; 25]);
        }
    }
}

#[test]
fn kept_equals_fresh() {
    let mut met = Met::default();
    for seed in 0..80 {
        run(&mut met, seed, 1_000, Board::SIXTEEN);
    }
    println!("{met:?}");
    for drawn in [&met.forty, &met.eighty] {
        assert!(drawn.accepted > 1_200, "{drawn:?}");
        assert!(drawn.partial > 600, "{drawn:?}");
        assert!(drawn.lent > 100, "{drawn:?}");
        assert!(drawn.from_other_mode > 100, "{drawn:?}");
        assert!(drawn.phases.iter().all(|times| *times > 100), "{drawn:?}");
        let blocks = &drawn.first_blocks[..8];
        assert!(blocks.iter().all(|times| *times > 20), "{drawn:?}");
        let origins = &drawn.origins[8..];
        assert!(origins.iter().all(|times| *times > 0), "{drawn:?}");
    }
    assert!(met.refused > 20, "refused {}", met.refused);
    let (accepted, cells) = (met.forty.accepted, 1_000 * met.forty.accepted);
    assert!(met.quadrichrome > cells / 20);
    assert!(met.user > cells / 20);
    assert!(met.flashing > cells / 20);
    assert!(met.lower > accepted, "lower halves {}", met.lower);
    assert!(met.right > accepted, "right halves {}", met.right);
    let cells = 2_000 * met.eighty.accepted;
    assert!(met.mosaics > cells / 20);
    assert!(met.underlined > cells / 20);
    assert!(met.negative > cells / 20);
    assert!(met.hidden > cells / 50);
    for number in [0, 2, 3, 4, 9] {
        assert!(met.numbers[number] > 0, "number {number} was not met");
    }
    met.moves.assert_varied(20);
    assert!(met.numbers[10] > 300, "{:?}", met.numbers);
}

#[test]
fn kept_equals_fresh_on_the_smaller_boards() {
    // The first so many pages are those of which a block is fitted.
    for (board, fitted) in [(Board::TWO, 2), (Board::EIGHT, 4)] {
        let mut met = Met::default();
        for seed in 200..240 {
            run(&mut met, seed, 1_000, board);
        }
        println!("{board:?}: {met:?}");
        for drawn in [&met.forty, &met.eighty] {
            assert!(drawn.accepted > 300, "{drawn:?}");
            assert!(drawn.partial > 100, "{drawn:?}");
            assert!(drawn.from_other_mode > 20, "{drawn:?}");
            let (pages, others) = drawn.first_blocks.split_at(fitted);
            assert!(pages.iter().all(|times| *times > 20), "{drawn:?}");
            assert!(others.iter().sum::<usize>() > 10, "{drawn:?}");
        }
        for number in [0, 2, 4, 9] {
            assert!(met.numbers[number] > 0, "number {number} was not met");
        }
        assert!(met.numbers[11] > 300, "{:?}", met.numbers);
        assert!(met.numbers[10] > 100, "{:?}", met.numbers);
        if board == Board::EIGHT {
            met.moves.assert_varied(25);
        } else {
            // MVT has no block of which all three bytes are fitted.
            let (fitted, others) = met.moves.steps.split_at(8);
            assert!(fitted.iter().all(|steps| *steps > 20), "{:?}", met.moves);
            assert_eq!(others, [0; 4]);
        }
    }
}

#[test]
fn kept_equals_fresh_on_the_ts9347() {
    let mut met = Met::default();
    for seed in 300..380 {
        run(&mut met, seed, 500, Board::TS9347);
    }
    println!("{met:?}");
    let drawn = &met.forty;
    assert!(drawn.accepted > 1_200, "{drawn:?}");
    assert!(drawn.partial > 600, "{drawn:?}");
    assert!(drawn.lent > 100, "{drawn:?}");
    assert!(drawn.phases.iter().all(|times| *times > 100), "{drawn:?}");
    let blocks = drawn.first_blocks;
    assert!(blocks.iter().all(|times| *times > 20), "{drawn:?}");
    let origins = &drawn.origins[8..];
    assert!(origins.iter().all(|times| *times > 0), "{drawn:?}");
    let cells = 1_000 * drawn.accepted;
    for count in [met.user, met.goe, met.q, met.flashing] {
        assert!(count > cells / 20, "{met:?}");
    }
    for halves in [met.lower, met.right, met.lower_q] {
        assert!(halves > drawn.accepted / 4, "{met:?}");
    }
    assert_eq!((met.quadrichrome, met.eighty.accepted), (0, 0));
    // It has no move: every step is one while nothing runs.
    assert_eq!((met.moves.steps, met.numbers[10]), ([0; 12], 0));
    assert!(met.moves.idle > 15, "{:?}", met.moves);
    for number in [0, 2, 3, 4, 9] {
        assert!(met.numbers[number] > 0, "number {number} was not met");
    }
    assert_eq!(met.numbers[11], 0);
}

/// What the marks of single operations showed in one mode.
#[derive(Debug, Default)]
struct Marked {
    stores: usize,
    /// Stores that left no row marked.
    unseen: usize,
    turns: usize,
    /// Phase changes that marked some rows and not all.
    partial_turns: usize,
    /// Changes of MAT.
    mats: usize,
}

#[test]
fn operations_mark_the_rows_of_the_lists_and_no_other() {
    for board in [Board::TWO, Board::EIGHT, Board::SIXTEEN] {
        let marked = marked_on(board);
        println!("{board:?}: {marked:?}");
        for marked in &marked {
            assert!(marked.stores > 300, "{marked:?}");
            assert!(marked.turns > 30, "{marked:?}");
            // Of 2 blocks only a page at 2 has a third that is fitted.
            let least = if board == Board::TWO { 2 } else { 11 };
            assert!(marked.partial_turns >= least, "{marked:?}");
            assert!(marked.mats > 5, "{marked:?}");
        }
        // In 80 columns most bytes that 40 would take as slices are on no list. Of 2 blocks a page
        // most often has both.
        let (eighty, least) = (&marked[1], if board == Board::TWO { 1 } else { 6 });
        assert!(eighty.unseen >= least && eighty.mats > 20, "{eighty:?}");
    }
}

#[test]
fn operations_on_the_ts9347_mark_the_rows_of_the_lists_and_no_other() {
    let [forty, eighty] = marked_on(Board::TS9347);
    println!("{forty:?}");
    assert!(forty.stores > 600, "{forty:?}");
    assert!(forty.unseen > 10, "{forty:?}");
    assert!(forty.turns > 60, "{forty:?}");
    assert!(forty.partial_turns > 10, "{forty:?}");
    // None of them marks: there is no page of 80 columns.
    assert!(forty.mats > 10, "{forty:?}");
    assert_eq!(eighty.stores, 0);
}

/// The operations of some sequences on a board, each of which must leave the marks of the lists.
fn marked_on(board: Board) -> [Marked; 2] {
    let mut marked = [Marked::default(), Marked::default()];
    for seed in 100..116 {
        let mut sequence = Sequence::new(seed);
        let mut bench = random_bench(&mut sequence, seed, board);
        for _ in 0..1_000 {
            let operation = sequence.operation(&bench.processor, &bench.memory);
            let before = bench.clone();
            let number = bench.apply_with(&PageRules, operation).number;
            if operation == Operation::Draw && number != 0 {
                assert_eq!(bench.processor.marks, before.processor.marks);
                continue;
            }
            let expected = expected_marks(&before, operation, &bench);
            assert_eq!(bench.processor.marks, expected, "{operation:?}");
            if let Some(mode) = before.processor.mode() {
                count(
                    &mut marked[usize::from(mode == Mode::Eighty)],
                    &before,
                    &bench,
                );
            }
        }
    }
    marked
}

fn count(marked: &mut Marked, before: &Bench, after: &Bench) {
    let (old, new) = (&before.processor, &after.processor);
    let added = (0..25).filter(|row| new.marks[*row] && !old.marks[*row]);
    let added = added.count();
    if before.memory != after.memory {
        marked.stores += 1;
        marked.unseen += usize::from(new.marks == [false; 25]);
    }
    if old.phase != new.phase {
        marked.turns += 1;
        marked.partial_turns += usize::from((1..25).contains(&added));
    }
    marked.mats += usize::from(old.mat != new.mat);
}

#[test]
fn a_fresh_processor_with_the_same_registers_draws_the_same_picture() {
    let mut sequence = Sequence::new(77);
    let mut bench = random_bench(&mut sequence, 77, Board::SIXTEEN);
    let mut compared = [0; 2];
    while compared.iter().any(|times| *times < 40) {
        let operation = sequence.operation(&bench.processor, &bench.memory);
        let answer = bench.apply_with(&PageRules, operation);
        if operation == Operation::Draw && answer.number == 0 {
            let mut other = bench.clone();
            other.processor.marks = [true; 25];
            other.picture.fill(0xEE);
            assert_eq!(other.draw().value, 25);
            assert_eq!(other.picture, bench.picture);
            compared[usize::from(bench.picture.len() == 60_000)] += 1;
        }
    }
}
