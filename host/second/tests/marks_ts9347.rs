//! Reading lists and marks of the TS9347 (request T-10): the sets Q, double height and flash of every
//! cell, and the registers.

use second::address::place;
use second::bench::Bench;
use second::cell::Cell;
use second::pointer::Pointer;
use second::{Board, Part};

/// G'0 in block 4, G'10 and G'11 in blocks 6 and 7, the sets Q from block 8: DOR 7 is set, so that the
/// page, with ROR 48 hex, is in blocks 20 to 22.
const DOR: u8 = 0xB4;
const FIRST: usize = 20;

/// A bench whose page is drawn, so that no row is marked.
fn drawn(cells: &[(usize, usize, u8)]) -> Bench {
    let mut bench = Bench::power_up_board(Board::TS9347);
    bench.indirect(7, 0x48);
    bench.indirect(4, DOR);
    for (row, column, b) in cells.iter().copied() {
        put(&mut bench, row, column, b, 0x70);
    }
    assert_eq!(bench.draw().number, 0);
    bench
}

/// Stores a cell of character 4B at a row of origin 8 and a column.
fn put(bench: &mut Bench, row: usize, column: usize, b: u8, a: u8) {
    let cell = Cell {
        part: Part::Ts9347,
        c: 0x4B,
        b,
        a,
    };
    let pointer = at(row, column, FIRST);
    assert_eq!(bench.store_cell(pointer, cell).number, 0);
}

fn at(row: usize, column: usize, z: usize) -> Pointer {
    let y = if row == 0 { 0 } else { 7 + row };
    Pointer { x: column, y, z }
}

fn marked(bench: &Bench) -> Vec<usize> {
    (0..25).filter(|row| bench.processor.marks[*row]).collect()
}

/// The block of each type's slices under `DOR`; none for the ROM.
const BLOCKS: [(u8, Option<usize>); 14] = [
    (0x00, None),
    (0x20, None),
    (0x30, None),
    (0x80, Some(4)),
    (0xA0, Some(6)),
    (0xB0, Some(7)),
    (0xC0, Some(8)),
    (0xC8, Some(9)),
    (0xD0, Some(10)),
    (0xD8, Some(11)),
    (0xE0, Some(12)),
    (0xE8, Some(13)),
    (0xF0, Some(14)),
    (0xF8, Some(15)),
];

#[test]
fn a_row_reads_its_120_bytes_and_ten_slices_of_every_user_cell() {
    for (b, block) in BLOCKS {
        let bench = drawn(&[(5, 30, b)]);
        let list = bench.processor.reading_list(&bench.memory, 5);
        let codes = (20..23).flat_map(|z| (0..40).map(move |x| place(x, 12, z)));
        let mut expected: Vec<usize> = codes.collect();
        // Character 4B: Y is 12 hex, X is 4 times the slice and 3.
        let slices = (0..10).map(|slice| 4 * slice + 3);
        expected.extend(block.iter().flat_map(|z| {
            let slices = slices.clone();
            slices.map(|x| place(x, 0x12, *z))
        }));
        expected.sort_unstable();
        assert!(list.into_iter().eq(expected), "B {b:02X}");
    }
}

#[test]
fn a_store_to_a_slice_marks_the_rows_that_show_it() {
    for (b, block) in BLOCKS {
        for z in 4..16 {
            for slice in [0, 4, 9] {
                let mut bench = drawn(&[(5, 30, b), (9, 0, b), (20, 39, 0x00)]);
                let pointer = Pointer {
                    x: 4 * slice + 3,
                    y: 0x12,
                    z,
                };
                bench.store_byte(pointer, 0x81);
                let rows = if block == Some(z) { vec![5, 9] } else { vec![] };
                assert_eq!(marked(&bench), rows, "B {b:02X}, block {z}");
            }
        }
    }
}

#[test]
fn a_store_to_a_code_marks_its_row_in_the_pages_three_blocks_alone() {
    for z in 0..32 {
        for row in [0, 1, 24] {
            let mut bench = drawn(&[]);
            bench.store_byte(at(row, 39, z), 0x01);
            let rows = if (20..23).contains(&z) {
                vec![row]
            } else {
                vec![]
            };
            assert_eq!(marked(&bench), rows, "block {z}");
        }
    }
}

/// The codes of the row above are on the list of a row with a double height cell, "and so upward while the
/// row added has one too", whatever the type.
#[test]
fn a_double_height_cell_of_any_type_reads_the_row_above() {
    for (b, _) in BLOCKS {
        let mut bench = drawn(&[(6, 30, b | 0x02), (7, 3, b | 0x02)]);
        bench.store_byte(at(5, 0, FIRST), 0x01);
        assert_eq!(marked(&bench), [5, 6, 7], "B {b:02X}");
        let mut bench = drawn(&[(6, 30, b | 0x02), (8, 3, b | 0x02)]);
        bench.store_byte(at(5, 0, FIRST), 0x01);
        assert_eq!(marked(&bench), [5, 6], "B {b:02X}");
        let mut bench = drawn(&[(6, 30, b), (7, 3, b)]);
        bench.store_byte(at(5, 0, FIRST), 0x01);
        assert_eq!(marked(&bench), [5], "B {b:02X}");
    }
}

/// A changed phase marks rows with a cell whose A3 is set, of any type, whatever PAT 6 is.
#[test]
fn a_changed_phase_marks_flashing_cells_of_any_type() {
    for (b, _) in BLOCKS {
        for pat in [0x00, 0x40] {
            let mut bench = drawn(&[(2, 2, b), (12, 12, b)]);
            bench.indirect(3, pat);
            put(&mut bench, 12, 12, b, 0x78);
            bench.draw();
            bench.turn(0);
            assert_eq!(marked(&bench), [], "B {b:02X}");
            bench.turn(1);
            assert_eq!(marked(&bench), [12], "B {b:02X}");
        }
    }
}

#[test]
fn a_changed_dor_ror_pat_or_tgs_marks_every_row_and_mat_none() {
    for r in [1, 2, 3, 4, 7] {
        for bit in 0..8 {
            for tgs in [0x00, 0xC0] {
                let mut bench = drawn(&[]);
                bench.indirect(1, tgs);
                bench.processor.marks = [false; 25];
                let present = [0, tgs, 0, 0, DOR, 0, 0, 0x48][usize::from(r)];
                bench.indirect(r, present);
                assert_eq!(marked(&bench), [], "register {r}, the same value");
                bench.indirect(r, present ^ 1 << bit);
                let rows = if r == 2 { 0 } else { 25 };
                assert_eq!(marked(&bench).len(), rows, "register {r}, bit {bit}");
            }
        }
    }
}

/// "While a draw would get 7 or 8, a store or phase change marks nothing."
#[test]
fn nothing_is_marked_while_the_page_is_not_drawn() {
    for (tgs, pat, ror) in [
        (0xC0, 0x00, 0x48),
        (0x80, 0x00, 0x48),
        (0x40, 0x00, 0x48),
        (0x20, 0x00, 0x48),
        (0x00, 0x80, 0x48),
        (0x00, 0x00, 0x47),
    ] {
        let mut bench = drawn(&[]);
        put(&mut bench, 1, 1, 0xC0, 0x78);
        bench.processor.marks = [false; 25];
        bench.processor.tgs = tgs;
        bench.processor.pat = pat;
        bench.processor.ror = ror;
        bench.store_byte(at(1, 0, FIRST), 0x55);
        bench.turn(1);
        assert_eq!(marked(&bench), []);
    }
}
