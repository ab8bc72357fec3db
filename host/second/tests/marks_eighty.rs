//! The marks of 80 columns: what a store, MAT, a mode change and a phase mark, row by row.

use std::collections::BTreeSet;

use second::bench::Bench;
use second::code::Code;
use second::page::screen_y;
use second::pointer::Pointer;

/// Stores a code in a row and position of the screen, in block 0 and by the present origin.
fn show(bench: &mut Bench, row: usize, position: usize, c: u8, nibble: u8) {
    let pointer = Pointer {
        x: position / 2,
        y: screen_y(bench.processor.ror, row),
        z: position % 2,
    };
    assert_eq!(bench.store_code(pointer, Code { c, nibble }).number, 0);
}

fn marked(bench: &Bench) -> Vec<usize> {
    (0..25).filter(|row| bench.processor.marks[*row]).collect()
}

/// A drawn bench of zero memory and 80 columns.
fn bench() -> Bench {
    let mut bench = Bench::drawable_eighty();
    assert_eq!(bench.draw().value, 25);
    bench
}

fn all_rows() -> Vec<usize> {
    (0..25).collect()
}

#[test]
fn each_of_the_three_bytes_marks_its_own_row() {
    for row in 0..25 {
        for x in [0, 31, 32, 39] {
            for z in 0..3 {
                let mut bench = bench();
                bench.indirect(7, 13);
                bench.draw();
                let y = screen_y(13, row);
                bench.store_byte(Pointer { x, y, z }, 0x55);
                assert_eq!(marked(&bench), [row]);
                assert_eq!(bench.draw().value, 1);
            }
        }
    }
}

#[test]
fn krl_marks_by_its_c_byte_and_by_its_nibble() {
    for position in [0, 1, 78, 79] {
        let mut bench = bench();
        show(&mut bench, 5, position, 0x00, 0x0);
        assert_eq!(marked(&bench), [], "nothing has changed");
        show(&mut bench, 5, position, 0x41, 0x0);
        assert_eq!(marked(&bench), [5], "C alone");
        bench.draw();
        show(&mut bench, 5, position, 0x41, 0x8);
        assert_eq!(marked(&bench), [5], "the nibble alone");
        bench.draw();
        show(&mut bench, 5, position, 0x41, 0x8);
        assert_eq!(marked(&bench), []);
        assert_eq!(bench.draw().value, 0);
    }
}

#[test]
fn krl_in_another_block_marks_nothing() {
    let mut bench = bench();
    for z in 4..16 {
        let code = Code {
            c: 0x41,
            nibble: 0xF,
        };
        bench.store_code(Pointer { x: 3, y: 9, z }, code);
    }
    assert_eq!(marked(&bench), []);
    // In block 3 its attributes are in block 0, where they are the C byte of an even position.
    let code = Code {
        c: 0x41,
        nibble: 0xF,
    };
    bench.store_code(Pointer { x: 3, y: 9, z: 3 }, code);
    assert_eq!(marked(&bench), [2]);
}

#[test]
fn a_store_to_a_user_slice_marks_nothing() {
    let mut bench = bench();
    bench.indirect(4, 0x33);
    // The bytes of each column would be a user cell or a quadrichrome one of 40 columns, with slices
    // in blocks 3, 6, 7 and 3.
    for (row, b) in [(2, 0x80), (4, 0xA0), (6, 0xB0), (8, 0xD8)] {
        show(&mut bench, row, 0, 0x4B, 0x7);
        show(&mut bench, row, 1, b, 0x0);
    }
    bench.draw();
    for block in [3, 6, 7] {
        bench.store_slices(0x4B, block, [0xFF; 10]);
    }
    assert_eq!(marked(&bench), []);
    // The same in 40 columns marks.
    bench.indirect(1, 0x00);
    bench.fit_picture(0);
    bench.draw();
    for (block, expected) in [(3, vec![2, 8]), (6, vec![4]), (7, vec![6])] {
        bench.store_slices(0x4B, block, [0x00; 10]);
        assert_eq!(marked(&bench), expected);
        bench.draw();
    }
}

#[test]
fn a_store_above_what_40_columns_take_as_double_height_marks_its_own_row() {
    let mut bench = bench();
    for row in 0..25 {
        show(&mut bench, row, 1, 0x02, 0x0);
    }
    bench.draw();
    show(&mut bench, 5, 20, 0x55, 0x0);
    assert_eq!(marked(&bench), [5]);
}

#[test]
fn the_list_of_a_row_is_its_120_bytes() {
    let mut bench = bench();
    bench.memory.fill(0x82);
    let list = bench.processor.reading_list(&bench.memory, 1);
    let expected: BTreeSet<usize> = (0..3)
        .flat_map(|block| (256..288).chain(64..72).map(move |at| 1024 * block + at))
        .collect();
    assert_eq!(list, expected);
    assert_eq!(list.len(), 120);
}

#[test]
fn a_changed_register_marks_all_rows_and_an_equal_one_none() {
    for (r, present) in [(1, 0xC0), (2, 0x00), (3, 0x00), (4, 0x00), (7, 0x08)] {
        for bit in 0..8u8 {
            let mut bench = bench();
            bench.indirect(r, present);
            assert_eq!(marked(&bench), []);
            bench.indirect(r, present ^ (1 << bit));
            assert_eq!(marked(&bench), all_rows(), "r {r}, bit {bit}");
        }
    }
}

#[test]
fn mat_marks_in_80_columns_alone() {
    let mut bench = bench();
    for value in 1..=255 {
        bench.indirect(2, value);
        assert_eq!(marked(&bench), all_rows());
        bench.draw();
        bench.indirect(2, value);
        assert_eq!(marked(&bench), [], "an equal value");
    }
    bench.indirect(1, 0x1F);
    bench.fit_picture(0);
    bench.draw();
    for value in 0..=255 {
        bench.indirect(2, value);
        assert_eq!(marked(&bench), [], "40 columns");
    }
}

/// The marks that a change of MAT and one of DOR leave where none were, with other TGS, PAT and ROR.
/// No sequence clears the marks of a page that is not drawn; the rule still says what happens.
fn marks_of_mat_and_dor(tgs: u8, pat: u8, ror: u8) -> [Vec<usize>; 2] {
    [2, 4].map(|r| {
        let mut bench = bench();
        bench.processor.tgs = tgs;
        bench.processor.pat = pat;
        bench.processor.ror = ror;
        bench.indirect(r, 0x55);
        marked(&bench)
    })
}

#[test]
fn mat_marks_whatever_else_a_draw_would_be_refused_for() {
    for (tgs, pat, ror) in [
        (0xC0, 0x00, 8),
        (0xE0, 0x00, 8),
        (0xFF, 0x00, 8),
        (0xC0, 0x80, 8),
        (0xC0, 0x00, 7),
        (0xE5, 0xFF, 0),
    ] {
        let expected = [all_rows(), all_rows()];
        assert_eq!(marks_of_mat_and_dor(tgs, pat, ror), expected);
    }
    for (tgs, pat, ror) in [
        (0x00, 0x00, 8),
        (0x40, 0x00, 8),
        (0x80, 0x00, 8),
        (0xBF, 0x00, 8),
        (0x20, 0x80, 7),
    ] {
        let expected = [vec![], all_rows()];
        assert_eq!(marks_of_mat_and_dor(tgs, pat, ror), expected);
    }
}

#[test]
fn a_mode_change_marks_every_row() {
    let mut bench = bench();
    for tgs in [0x00, 0xC0, 0x1F, 0xDF] {
        bench.indirect(1, tgs);
        assert_eq!(marked(&bench), all_rows());
        bench.fit_picture(0xEE);
        assert_eq!(bench.draw().value, 25);
        assert_eq!(marked(&bench), []);
    }
    // There and back again, with no draw between.
    bench.indirect(1, 0x00);
    bench.indirect(1, 0xDF);
    assert_eq!(marked(&bench), all_rows());
}

#[test]
fn a_changed_phase_marks_the_rows_with_a_character_that_flashes() {
    let mut bench = bench();
    show(&mut bench, 0, 79, 0x20, 0x4);
    show(&mut bench, 7, 0, 0x7F, 0xC);
    show(&mut bench, 11, 33, 0x00, 0xF);
    // A mosaic's bit 2 is a window, and the other bits of a character do not flash.
    show(&mut bench, 12, 0, 0x80, 0xF);
    show(&mut bench, 12, 1, 0xFF, 0x4);
    show(&mut bench, 13, 0, 0x20, 0xB);
    // A mosaic beside a character that does not flash: each has its own nibble.
    show(&mut bench, 14, 6, 0x80, 0x4);
    show(&mut bench, 14, 7, 0x20, 0x0);
    show(&mut bench, 15, 6, 0x20, 0x0);
    show(&mut bench, 15, 7, 0x80, 0x4);
    bench.draw();
    for pat in [0x00, 0x40] {
        bench.indirect(3, pat);
        bench.draw();
        bench.turn(0);
        assert_eq!(marked(&bench), []);
        bench.turn(1);
        assert_eq!(marked(&bench), [0, 7, 11]);
        bench.draw();
        bench.turn(1);
        assert_eq!(marked(&bench), []);
        bench.turn(0);
        assert_eq!(marked(&bench), [0, 7, 11]);
        bench.draw();
    }
}

#[test]
fn the_flash_of_each_mode_is_its_own() {
    // A3, and bits 6 and 2 of the attributes, in the third byte of three rows.
    for (tgs, expected) in [(0x00, [3]), (0xC0, [4])] {
        let mut bench = bench();
        bench.indirect(1, tgs);
        bench.store_byte(Pointer { x: 0, y: 10, z: 2 }, 0x08);
        bench.store_byte(Pointer { x: 0, y: 11, z: 2 }, 0x44);
        bench.fit_picture(0);
        bench.draw();
        bench.turn(1);
        assert_eq!(marked(&bench), expected);
    }
}

#[test]
fn while_a_draw_would_be_refused_stores_and_phases_mark_nothing() {
    // No sequence clears the marks of such a page; the rule still says what happens.
    for (tgs, pat, ror) in [(0xE0, 0, 8), (0xC0, 0x80, 8), (0xC0, 0, 7)] {
        let mut bench = bench();
        show(&mut bench, 1, 0, 0x20, 0x4);
        bench.draw();
        bench.processor.tgs = tgs;
        bench.processor.pat = pat;
        bench.processor.ror = ror;
        let code = Code {
            c: 0x55,
            nibble: 0x4,
        };
        bench.store_code(Pointer { x: 0, y: 8, z: 0 }, code);
        bench.turn(1);
        assert_eq!(bench.processor.phase, 1);
        assert_eq!(bench.memory[256], 0x55);
        assert_eq!(marked(&bench), []);
    }
}

#[test]
fn a_wrong_picture_does_not_keep_a_store_from_marking() {
    // Whether a draw would get 7 or 8 is decided by TGS, PAT and ROR alone.
    let mut bench = bench();
    bench.picture.truncate(40_000);
    show(&mut bench, 3, 3, 0x41, 0x0);
    assert_eq!(marked(&bench), [3]);
    assert_eq!(bench.draw().number, 6);
    assert_eq!(marked(&bench), [3]);
}
