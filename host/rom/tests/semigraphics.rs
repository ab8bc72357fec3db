//! The mosaics and the lines of the demonstration ROM are what their rules make of the code.

use rom::{demonstration, place, Set, COLUMNS, SLICES};

type Slices = [u8; SLICES];

fn drawn(set: Set, code: u8) -> Slices {
    let (rom, _) = demonstration().expect("the texts are right");
    let place = place(set, code);
    rom[place..place + SLICES].try_into().expect("ten slices")
}

/// The slices of the pixels for which a test holds, asked by column and line.
fn slices(test: impl Fn(usize, usize) -> bool) -> Slices {
    std::array::from_fn(|line| {
        (0..COLUMNS)
            .filter(|&column| test(column, line))
            .map(|column| 1 << column)
            .sum()
    })
}

/// The block of a line among the three, from the top: they have three, four and three lines.
fn third(line: usize) -> usize {
    match line {
        0..=2 => 0,
        3..=6 => 1,
        _ => 2,
    }
}

/// Bit 0 is the upper left block, bit 1 the upper right one, and so down to bit 5.
fn contiguous(code: u8) -> Slices {
    slices(|column, line| code >> (2 * third(line) + column / 4) & 1 == 1)
}

/// The last line and the last column of every block.
fn is_gap(column: usize, line: usize) -> bool {
    column % 4 == 3 || [2, 6, 9].contains(&line)
}

#[test]
fn the_upper_half_of_g10_has_the_contiguous_mosaics() {
    for code in 0x40..=0x7F {
        assert_eq!(drawn(Set::G10, code), contiguous(code % 64), "{code:02X}");
    }
}

#[test]
fn the_lower_half_of_g10_has_the_same_blocks_with_gaps() {
    let gaps = slices(is_gap);
    for code in 0x00..=0x3F {
        let separated = drawn(Set::G10, code);
        let whole = drawn(Set::G10, 0x40 + code);
        for line in 0..SLICES {
            assert_eq!(separated[line], whole[line] & !gaps[line], "{code:02X}");
        }
    }
}

#[test]
fn every_block_of_a_separated_mosaic_shows() {
    for bit in 0..6 {
        assert_ne!(drawn(Set::G10, 1 << bit), [0; SLICES]);
        assert_ne!(
            drawn(Set::G10, 1 << bit),
            drawn(Set::G10, 0x40 + (1 << bit))
        );
    }
}

/// The columns and the lines that a line drawing takes around the middle of the cell.
struct Middle {
    columns: [usize; 2],
    lines: [usize; 2],
}

/// Whether the arms of a code cover a pixel, which may lie one outside the cell: bit 0 reaches up,
/// 1 right, 2 down, 3 left.
fn covered(arms: u8, middle: &Middle, column: isize, line: isize) -> bool {
    let has = |bit: u8| arms >> bit & 1 == 1;
    let [left, right] = middle.columns.map(|column| column as isize);
    let [top, bottom] = middle.lines.map(|line| line as isize);
    let (above, below) = (line < top, line > bottom);
    let (before, after) = (column < left, column > right);
    match (before || after, above || below) {
        (false, false) => arms != 0,
        (false, true) => has(if above { 0 } else { 2 }),
        (true, false) => has(if after { 1 } else { 3 }),
        (true, true) => false,
    }
}

#[test]
fn single_lines_reach_the_sides_that_their_bits_name() {
    let middle = Middle {
        columns: [3, 4],
        lines: [4, 5],
    };
    for code in 0x00..=0x0F {
        let wanted = slices(|column, line| covered(code, &middle, column as isize, line as isize));
        assert_eq!(drawn(Set::G11, code), wanted, "{code:02X}");
    }
}

/// A double line is the edge of a broad one: what of it has something else beside it.
fn is_edge(arms: u8, middle: &Middle, column: isize, line: isize) -> bool {
    let around = (-1..=1).flat_map(|down| (-1..=1).map(move |across| (across, down)));
    covered(arms, middle, column, line)
        && around
            .into_iter()
            .any(|(across, down)| !covered(arms, middle, column + across, line + down))
}

#[test]
fn double_lines_are_the_edges_of_broad_ones() {
    let middle = Middle {
        columns: [2, 5],
        lines: [3, 6],
    };
    for code in 0x00..=0x0F {
        let wanted = slices(|column, line| is_edge(code, &middle, column as isize, line as isize));
        assert_eq!(drawn(Set::G11, 0x10 + code), wanted, "{code:02X}");
    }
}
