//! The marks: what a store, a register and a phase mark, row by row, and the reading lists behind
//! them. What is particular to 80 columns has a file of its own.

use std::collections::BTreeSet;

use second::bench::Bench;
use second::cell::Cell;
use second::page::screen_y;
use second::pointer::Pointer;
use second::random::Random;
use second::sequence::Sequence;
use second::{Mode, Part, Processor};

/// Stores a cell in a row and column of the screen, in block 0 and by the present origin.
fn show(bench: &mut Bench, row: usize, column: usize, c: u8, b: u8, a: u8) {
    let y = screen_y(bench.processor.ror, row);
    let pointer = Pointer { x: column, y, z: 0 };
    let part = Part::Ef9345;
    assert_eq!(bench.store_cell(pointer, Cell { part, c, b, a }).number, 0);
}

fn marked(bench: &Bench) -> Vec<usize> {
    (0..25).filter(|row| bench.processor.marks[*row]).collect()
}

/// A drawn bench of zero memory, with slices in block 3 for G'0 and Q3 and in 6 and 7 for G'1.
fn bench() -> Bench {
    let mut bench = Bench::drawable();
    bench.indirect(4, 0x33);
    assert_eq!(bench.draw().value, 25);
    bench
}

fn all_rows() -> Vec<usize> {
    (0..25).collect()
}

#[test]
fn power_up_marks_every_row() {
    assert_eq!(marked(&Bench::power_up()), all_rows());
    assert_eq!(marked(&bench()), []);
}

#[test]
fn a_code_byte_marks_its_own_row() {
    for row in 0..25 {
        let mut bench = bench();
        show(&mut bench, row, 39, 1, 0, 0);
        assert_eq!(marked(&bench), [row]);
        assert_eq!(bench.draw().value, 1);
    }
}

#[test]
fn a_store_of_the_same_byte_marks_nothing() {
    let mut bench = bench();
    show(&mut bench, 5, 5, 0, 0, 0);
    assert_eq!(marked(&bench), []);
    let answer = bench.draw();
    assert_eq!((answer.number, answer.value), (0, 0));
}

#[test]
fn a_store_outside_every_list_marks_nothing() {
    let mut bench = bench();
    bench.store_slices(0x4B, 3, [0xFF; 10]);
    bench.store_byte(Pointer { x: 3, y: 9, z: 12 }, 0xFF);
    assert_eq!(marked(&bench), []);
}

#[test]
fn a_store_above_double_height_marks_down_the_chain() {
    let mut bench = bench();
    // Rows 6, 7 and 9 have a double height cell, in different columns; row 8 has none.
    show(&mut bench, 6, 0, 0x41, 0x02, 0x70);
    show(&mut bench, 7, 39, 0x42, 0xB2, 0x70);
    show(&mut bench, 9, 20, 0x43, 0x42, 0x70);
    bench.draw();
    for (row, expected) in [
        (3, vec![3]),
        (4, vec![4]),
        (5, vec![5, 6, 7]),
        (6, vec![6, 7]),
        (7, vec![7]),
        (8, vec![8, 9]),
        (9, vec![9]),
        (10, vec![10]),
    ] {
        show(&mut bench, row, 13, 0x55, 0x00, 0x00);
        assert_eq!(marked(&bench), expected);
        bench.draw();
    }
}

#[test]
fn the_chain_ends_at_row_0_and_does_not_go_round() {
    let mut bench = bench();
    bench.indirect(7, 20);
    for row in 0..25 {
        show(&mut bench, row, 0, 0x41, 0x02, 0x70);
    }
    bench.draw();
    show(&mut bench, 0, 13, 0x55, 0x00, 0x00);
    assert_eq!(marked(&bench), all_rows());
    bench.draw();
    show(&mut bench, 24, 13, 0x55, 0x00, 0x00);
    assert_eq!(marked(&bench), [24]);
    bench.draw();
    show(&mut bench, 23, 13, 0x55, 0x00, 0x00);
    assert_eq!(marked(&bench), [23, 24]);
}

#[test]
fn the_b1_of_a_quadrichrome_cell_is_no_double_height() {
    let mut bench = bench();
    show(&mut bench, 6, 0, 0x41, 0xDA, 0x70);
    bench.draw();
    show(&mut bench, 5, 0, 0x41, 0x00, 0x70);
    assert_eq!(marked(&bench), [5]);
}

#[test]
fn a_slice_marks_the_rows_that_show_its_character() {
    let mut bench = bench();
    show(&mut bench, 2, 0, 0x4B, 0x80, 0x70);
    show(&mut bench, 4, 1, 0xCB, 0x90, 0x70);
    show(&mut bench, 6, 2, 0x4B, 0xD8, 0x70);
    show(&mut bench, 8, 3, 0x4B, 0xDE, 0x70);
    show(&mut bench, 10, 4, 0x4B, 0xA0, 0x70);
    show(&mut bench, 12, 5, 0x4B, 0xB0, 0x70);
    show(&mut bench, 14, 6, 0x4C, 0x80, 0x70);
    show(&mut bench, 16, 7, 0x4B, 0x00, 0x70);
    bench.draw();
    for (block, expected) in [
        (3, vec![2, 4, 6, 8]),
        (6, vec![10]),
        (7, vec![12]),
        (4, vec![]),
    ] {
        for slice in 0..10 {
            let x = 4 * slice + 3;
            let pointer = Pointer { x, y: 18, z: block };
            bench.store_byte(pointer, 0xFF);
            assert_eq!(marked(&bench), expected, "slice {slice} of block {block}");
            bench.draw();
        }
    }
}

#[test]
fn rows_added_above_give_no_slices() {
    let mut bench = bench();
    show(&mut bench, 5, 0, 0x4B, 0x80, 0x70);
    show(&mut bench, 6, 0, 0x41, 0x02, 0x70);
    bench.draw();
    let pointer = Pointer { x: 3, y: 18, z: 3 };
    bench.store_byte(pointer, 0xFF);
    assert_eq!(marked(&bench), [5]);
}

#[test]
fn a_byte_that_is_both_code_and_slice_marks_for_both() {
    let mut bench = bench();
    // G'0 in block 0: character 20 hex, slice 0, is the C byte of column 0 of Y 8, which is row 1.
    bench.indirect(4, 0x00);
    show(&mut bench, 9, 0, 0x20, 0x80, 0x70);
    bench.draw();
    show(&mut bench, 1, 0, 0x33, 0x00, 0x00);
    assert_eq!(marked(&bench), [1, 9]);
}

#[test]
fn a_changed_register_marks_all_rows_and_an_equal_one_none() {
    for r in [1, 3, 4, 7] {
        for bit in 0..8u8 {
            let mut bench = bench();
            let present = match r {
                4 => 0x33,
                7 => 0x08,
                _ => 0x00,
            };
            bench.indirect(r, present);
            assert_eq!(marked(&bench), []);
            bench.indirect(r, present ^ (1 << bit));
            assert_eq!(marked(&bench), all_rows());
        }
    }
    let mut bench = bench();
    for value in 0..=255 {
        bench.indirect(2, value);
        assert_eq!(marked(&bench), [], "MAT marks nothing");
    }
}

#[test]
fn reading_a_register_marks_nothing() {
    let mut bench = bench();
    for command in [0x89, 0x8A, 0x8B, 0x8C, 0x8F, 0x08, 0x09, 0x38, 0x3D] {
        bench.write(0x28, command);
    }
    assert_eq!(marked(&bench), []);
}

#[test]
fn a_changed_phase_marks_the_rows_that_flash() {
    let mut bench = bench();
    show(&mut bench, 0, 39, 0x20, 0x00, 0x08);
    show(&mut bench, 11, 0, 0x20, 0xB0, 0xF8);
    // A3 of a quadrichrome cell is a colour of its palette.
    show(&mut bench, 12, 0, 0x20, 0xC0, 0x08);
    show(&mut bench, 13, 0, 0x20, 0x00, 0xF7);
    bench.draw();
    for pat in [0x00, 0x40] {
        bench.indirect(3, pat);
        bench.draw();
        bench.turn(0);
        assert_eq!(marked(&bench), []);
        bench.turn(1);
        assert_eq!(marked(&bench), [0, 11]);
        bench.draw();
        bench.turn(1);
        assert_eq!(marked(&bench), []);
        bench.turn(0);
        assert_eq!(marked(&bench), [0, 11]);
        bench.draw();
    }
}

#[test]
fn while_a_draw_would_be_refused_stores_and_phases_mark_nothing() {
    // No sequence clears the marks of such a page; the rule still says what happens.
    for (tgs, pat, ror) in [
        (0x20, 0, 8),
        (0x40, 0, 8),
        (0x80, 0, 8),
        (0, 0x80, 8),
        (0, 0, 7),
    ] {
        let mut bench = bench();
        show(&mut bench, 1, 0, 0x20, 0x00, 0x08);
        bench.draw();
        bench.processor.tgs = tgs;
        bench.processor.pat = pat;
        bench.processor.ror = ror;
        bench.store_byte(Pointer { x: 0, y: 8, z: 0 }, 0x55);
        bench.turn(1);
        assert_eq!(bench.processor.phase, 1);
        assert_eq!(bench.memory[256], 0x55);
        assert_eq!(marked(&bench), []);
        bench.indirect(4, 0x77);
        assert_eq!(marked(&bench), all_rows());
    }
}

#[test]
fn an_unreached_phase_is_a_changed_one() {
    let mut bench = bench();
    show(&mut bench, 3, 0, 0x20, 0x00, 0x08);
    bench.draw();
    bench.processor.phase = 7;
    assert_eq!(bench.turn(0).number, 0);
    assert_eq!(marked(&bench), [3]);
}

#[test]
fn the_list_of_a_row_of_rom_cells_is_its_codes() {
    let bench = bench();
    let list = bench.processor.reading_list(&bench.memory, 1);
    let expected: BTreeSet<usize> = (0..3)
        .flat_map(|block| (256..288).chain(64..72).map(move |at| 1024 * block + at))
        .collect();
    assert_eq!(list, expected);
    assert_eq!(list.len(), 120);
}

#[test]
fn the_list_takes_slices_and_rows_above() {
    let mut bench = bench();
    show(&mut bench, 2, 0, 0x4B, 0x82, 0x70);
    show(&mut bench, 2, 1, 0x10, 0x80, 0x70);
    let list = bench.processor.reading_list(&bench.memory, 2);
    let mut expected = BTreeSet::new();
    for block in 0..3 {
        expected.extend((288..320).map(|at| 1024 * block + at));
        expected.extend((72..80).map(|at| 1024 * block + at));
        expected.extend((256..288).map(|at| 1024 * block + at));
        expected.extend((64..72).map(|at| 1024 * block + at));
    }
    // Slices 0 to 7 of character 4B have X below 32; 8 and 9 are at X 35 and 39.
    expected.extend((0..8).map(|slice| 3651 + 4 * slice));
    expected.extend([3219, 3223]);
    assert_eq!(list, expected);
}

/// A random drawable state over a random memory, in either mode.
fn random_state(random: &mut Random) -> (Processor, Vec<u8>, Vec<u8>) {
    let memory = Sequence::new(random.number()).memory(16);
    let mode = random.choice(&[Mode::Forty, Mode::Eighty]);
    let mut processor = Processor::power_up();
    processor.tgs = mode.tgs();
    processor.mat = random.byte();
    processor.pat = random.byte() % 0x80;
    processor.dor = random.byte();
    processor.ror = random.byte() / 32 * 32 + 8 + random.below(24) as u8;
    processor.phase = random.byte() % 2;
    processor.marks = [false; 25];
    (processor, memory, random.bytes(6_400))
}

/// A legal place, most often one that some row reads.
fn random_place(random: &mut Random, lists: &[BTreeSet<usize>]) -> usize {
    let list = &lists[random.below(25)];
    if random.one_in(4) {
        let (x, y, z) = (random.below(40), 8 + random.below(24), random.below(16));
        Pointer { x, y, z }.place()
    } else {
        let nth = random.below(list.len());
        *list.iter().nth(nth).expect("a list is never empty")
    }
}

#[test]
fn every_row_that_a_byte_changes_has_it_on_its_list() {
    let mut random = Random::new(40);
    let mut changed_rows = [0; 2];
    for _ in 0..120 {
        let (processor, mut memory, rom) = random_state(&mut random);
        let is_eighty = processor.mode() == Some(Mode::Eighty);
        let mut before = processor.fresh(&memory, &rom);
        for _ in 0..10 {
            let lists: Vec<_> = (0..25)
                .map(|row| processor.reading_list(&memory, row))
                .collect();
            let place = random_place(&mut random, &lists);
            memory[place] ^= 1 << random.below(8);
            let after = processor.fresh(&memory, &rom);
            let length = after.len() / 25;
            for row in 0..25 {
                let bytes = length * row..length * (row + 1);
                if before[bytes.clone()] != after[bytes] {
                    changed_rows[usize::from(is_eighty)] += 1;
                    assert!(lists[row].contains(&place), "row {row}, place {place}");
                }
            }
            before = after;
        }
    }
    let enough = changed_rows.iter().all(|rows| *rows > 300);
    assert!(
        enough,
        "rows changed in 40 and 80 columns: {changed_rows:?}"
    );
}

#[test]
fn a_byte_is_on_a_list_before_its_change_exactly_when_it_is_after() {
    let mut random = Random::new(41);
    let mut held = 0;
    for _ in 0..150 {
        let (processor, mut memory, _) = random_state(&mut random);
        let before: Vec<_> = (0..25)
            .map(|row| processor.reading_list(&memory, row))
            .collect();
        let place = random_place(&mut random, &before);
        memory[place] = random.byte();
        for (row, list) in before.iter().enumerate() {
            let after = processor.reading_list(&memory, row);
            assert_eq!(list.contains(&place), after.contains(&place));
            held += usize::from(list.contains(&place));
        }
    }
    assert!(held > 200, "only {held} lists held the byte");
}
