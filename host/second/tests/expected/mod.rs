//! The marks that an operation must leave, worked out from sets of places and from the bytes of a row.

use second::address::place;
use second::bench::Bench;
use second::operation::Operation;
use second::page::screen_y;
use second::processor::Processor;
use second::{Mode, Part};

/// What the operation between two benches must leave as marks. A draw leaves none.
pub fn expected_marks(before: &Bench, operation: Operation, after: &Bench) -> [bool; 25] {
    match operation {
        Operation::Draw => [false; 25],
        Operation::PowerUp { .. } => [true; 25],
        Operation::Turn { .. } => marks_of_turn(before, after),
        // The bytes of a step are stored one after the other, each with the lists just before it; but a list
        // that an earlier one of them has changed held that byte, so that its row was marked by then.
        Operation::Write { .. } | Operation::Read { .. } | Operation::Step => {
            marks_of_stores(before, after)
        }
    }
}

fn marks_of_stores(before: &Bench, after: &Bench) -> [bool; 25] {
    let (old, new) = (&before.processor, &after.processor);
    let shown =
        |processor: &Processor| [processor.ror, processor.dor, processor.pat, processor.tgs];
    // MAT counts where TGS of the EF9345 has bits 7 and 6, whatever else it has.
    let counts = old.board.part == Part::Ef9345 && old.tgs >= 0xC0;
    if shown(old) != shown(new) || (old.mat != new.mat && counts) {
        return [true; 25];
    }
    let mut marks = old.marks;
    let places = 0..before.memory.len();
    let changed = places.filter(|place| before.memory[*place] != after.memory[*place]);
    for place in changed {
        for (row, mark) in marks.iter_mut().enumerate() {
            *mark |= old.page_refusal().is_none()
                && old.reading_list(&before.memory, row).contains(&place);
        }
    }
    marks
}

fn marks_of_turn(before: &Bench, after: &Bench) -> [bool; 25] {
    let mut marks = before.processor.marks;
    let changed = before.processor.phase != after.processor.phase;
    if changed && before.processor.page_refusal().is_none() {
        for (row, mark) in marks.iter_mut().enumerate() {
            *mark |= flashes(before, row);
        }
    }
    marks
}

/// Whether a cell of a row has the flash attribute, by the three bytes of each column: A3 of a
/// bichrome cell, which every one of the TS9347 is, or bits 6 and 2 of the attributes of the two
/// characters of 80 columns. A byte past the end of the memory is not fitted, and 0.
fn flashes(bench: &Bench, row: usize) -> bool {
    let (page, ror) = (bench.processor.page(&bench.memory), bench.processor.ror);
    let is_later = bench.processor.board.part == Part::Ts9347;
    let z4 = usize::from(is_later && bench.processor.dor >= 0x80);
    let byte = |x: usize, byte: usize| {
        let first = 16 * z4 + 2 * usize::from(ror / 32);
        let place = place(x, screen_y(ror, row), first / 4 * 4 + (first + byte) % 4);
        bench.memory.get(place).copied().unwrap_or(0)
    };
    (0..40).any(|x| {
        let [first, second, third] = [0, 1, 2].map(|number| byte(x, number));
        match page.mode {
            Mode::Forty => (is_later || second < 0xC0) && third & 0x08 != 0,
            Mode::Eighty => {
                (first < 0x80 && third & 0x40 != 0) || (second < 0x80 && third & 0x04 != 0)
            }
        }
    })
}
