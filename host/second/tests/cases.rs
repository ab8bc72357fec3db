//! The twelve cases of the page's small set, each as the page words it.

use second::address::{place, slice_address, Address};
use second::bench::Bench;
use second::bichrome::slices_of_twenty_lines;
use second::cell::Cell;
use second::colour::{colour_of_rank, Colour};
use second::page::screen_y;
use second::pointer::{Pointer, Which};
use second::Part;

#[test]
fn cases_1_to_5_places() {
    assert_eq!(place(39, 0, 0), 39);
    assert_eq!(place(0, 8, 0), 256);
    assert_eq!(place(32, 8, 0), 64);
    assert_eq!(place(39, 31, 0), 255);
    assert_eq!(place(31, 31, 15), 16_383);
}

#[test]
fn cases_1_to_5_are_the_bytes_that_a_store_changes() {
    for (x, y, z, expected) in [
        (39, 0, 0, 39),
        (0, 8, 0, 256),
        (32, 8, 0, 64),
        (39, 31, 0, 255),
        (31, 31, 15, 16_383),
    ] {
        let mut bench = Bench::power_up();
        let answer = bench.store_byte(Pointer { x, y, z }, 0x52);
        assert_eq!((answer.number, answer.value), (0, 0));
        let changed: Vec<usize> = (0..16_384).filter(|at| bench.memory[*at] != 0).collect();
        assert_eq!(changed, [expected]);
    }
}

#[test]
fn case_6_main_pointer() {
    let registers = [0, 0, 0, 0, 0, 0, 0xA8, 0xA6];
    let pointer = Pointer::of(Part::Ef9345, &registers, Which::Main);
    assert_eq!((pointer.x, pointer.y, pointer.z), (38, 8, 13));
    assert_eq!(pointer.place(), 13_382);

    let mut bench = Bench::power_up();
    for (address, value) in [(0x26, 0xA8), (0x27, 0xA6), (0x20, 0x30), (0x29, 0xEE)] {
        assert_eq!(bench.write(address, value).number, 0);
    }
    assert_eq!(bench.memory[13_382], 0xEE);
}

#[test]
fn case_7_user_slices() {
    let slice = |c, slice| slice_address(c, slice, 3, 16);
    assert_eq!(slice(0x4B, 0), Address::Fitted(3651));
    assert_eq!(slice(0x4B, 9), Address::Fitted(3223));
    assert_eq!(slice(0xCB, 0), slice(0x4B, 0), "bit 7 of C is ignored");
}

#[test]
fn case_8_bichrome_line() {
    let mut bench = Bench::drawable();
    bench.indirect(4, 0x03);
    bench.store_slices(0x4B, 3, [0x52; 10]);
    let cell = Cell {
        part: Part::Ef9345,
        c: 0x4B,
        b: 0x80,
        a: 0x70,
    };
    bench.store_cell(Pointer { x: 0, y: 8, z: 0 }, cell);
    assert_eq!(bench.draw().number, 0);
    assert_eq!(bench.picture[1600..1604], [0x70, 0x00, 0x07, 0x07]);
}

#[test]
fn case_9_quadrichrome_line() {
    let mut bench = Bench::drawable();
    bench.store_slices(0x4B, 3, [0xE4; 10]);
    let cell = Cell {
        part: Part::Ef9345,
        c: 0x4B,
        b: 0xD8,
        a: 0x5A,
    };
    bench.store_cell(Pointer { x: 0, y: 8, z: 0 }, cell);
    assert_eq!(bench.draw().number, 0);
    assert_eq!(bench.picture[1600..1604], [0x11, 0x33, 0x44, 0x66]);
}

#[test]
fn case_10_double_alphanumeric_lines() {
    let slices = slices_of_twenty_lines(true);
    assert_eq!(slices.len(), 20);
    assert_eq!([slices[2], slices[3], slices[18], slices[19]], [0, 1, 8, 9]);
}

#[test]
fn case_11_rows_of_origin_31() {
    assert_eq!(screen_y(31, 1), 31);
    assert_eq!(screen_y(31, 2), 8);
    assert_eq!(screen_y(31, 24), 30);
}

#[test]
fn case_12_short_palette() {
    let colours: Vec<Colour> = (0..4).map(|rank| colour_of_rank(0x03, rank)).collect();
    let expected = [Colour::Black, Colour::Red, Colour::White, Colour::White];
    assert_eq!(colours, expected);
}

#[test]
fn different_legal_triples_have_different_places() {
    let mut places = std::collections::BTreeSet::new();
    let mut legal = 0;
    for z in 0..16 {
        for y in std::iter::once(0).chain(8..32) {
            for x in 0..40 {
                assert!(
                    !(40..64).contains(&(place(x, y, z) % 1024)),
                    "an unused byte"
                );
                places.insert(place(x, y, z));
                legal += 1;
            }
        }
    }
    assert_eq!(legal, 16_000);
    assert_eq!(places.len(), 16_000);
    assert!(places.last() < Some(&16_384));
}
