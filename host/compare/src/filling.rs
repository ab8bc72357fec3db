//! How the private memory of a random page of 40 columns is filled.

use second::address::{code_block, place};
use second::cell::Cell;
use second::page::{first_block, screen_y};
use second::random::Random;
use second::sequence::{bichrome_b, short_palette};
use second::{Board, Part, COLUMNS, ROWS};

/// What says where a page is kept.
#[derive(Clone, Copy, Debug, PartialEq, Eq)]
pub struct Shown {
    pub board: Board,
    pub ror: u8,
    pub dor: u8,
}

impl Shown {
    pub fn first_block(self) -> usize {
        first_block(self.board.part, self.ror, self.dor)
    }
}

#[derive(Clone, Copy, Debug, PartialEq, Eq)]
pub enum Filling {
    /// Any bytes at all.
    AnyBytes,
    /// A few cells, many of them double height or double width, so that runs are frequent.
    FewCells,
    /// One cell down each column, with a gap here and there.
    EqualColumns,
    /// One cell along each row, with a gap here and there.
    EqualRows,
    /// Cells whose slices stand in the blocks of the page itself.
    ShownSlices,
    /// Quadrichrome cells of fewer than four colours; of the TS9347, which has none, cells of the sets Q
    /// with the same bytes.
    ShortPalettes,
}

pub const FILLINGS: [Filling; 6] = [
    Filling::AnyBytes,
    Filling::FewCells,
    Filling::EqualColumns,
    Filling::EqualRows,
    Filling::ShownSlices,
    Filling::ShortPalettes,
];

impl Filling {
    /// A memory of the board in which such a page is shown, as far as it is fitted.
    pub fn memory(self, random: &mut Random, shown: Shown) -> Vec<u8> {
        let part = shown.board.part;
        let mut memory = random.bytes(shown.board.memory());
        match self {
            Filling::AnyBytes => {}
            Filling::FewCells => {
                let cells = few_cells(random, part);
                fill(&mut memory, shown, |_, _| random.choice(&cells));
            }
            Filling::EqualColumns => {
                let cells: Vec<Cell> = (0..COLUMNS).map(|_| double_cell(random, part)).collect();
                fill(&mut memory, shown, |_, column| {
                    with_gap(random, cells[column])
                });
            }
            Filling::EqualRows => {
                let cells: Vec<Cell> = (0..ROWS).map(|_| double_cell(random, part)).collect();
                fill(&mut memory, shown, |row, _| with_gap(random, cells[row]));
            }
            Filling::ShownSlices => {
                let first = shown.first_block();
                fill(&mut memory, shown, |_, _| own_cell(random, part, first));
            }
            Filling::ShortPalettes => fill(&mut memory, shown, |_, _| short_cell(random, part)),
        }
        memory
    }

    /// A value for DOR: any, or one that names blocks of the page itself. Of the TS9347 that is a page
    /// without DOR 7, since the blocks of the user sets are below 16.
    pub fn dor(self, random: &mut Random, part: Part, ror: u8) -> u8 {
        match self {
            Filling::ShownSlices => {
                let first = first_block(part, ror, 0);
                let high = match part {
                    Part::Ef9345 => 128 * (first / 8),
                    Part::Ts9347 => 0,
                };
                let named = high + 16 * (first / 2) + shown_block(random, first);
                u8::try_from(named).expect("DOR is a byte")
            }
            _ => random.byte(),
        }
    }
}

/// Stores the cell that is given for each row and column of the shown page. A place past the end is not
/// fitted.
fn fill(memory: &mut [u8], shown: Shown, mut given: impl FnMut(usize, usize) -> Cell) {
    for row in 0..ROWS {
        for column in 0..COLUMNS {
            let cell = given(row, column);
            for (number, value) in [cell.c, cell.b, cell.a].into_iter().enumerate() {
                let block = code_block(shown.first_block(), number);
                let place = place(column, screen_y(shown.ror, row), block);
                if let Some(byte) = memory.get_mut(place) {
                    *byte = value;
                }
            }
        }
    }
}

/// One of the three blocks that hold the page's codes, of which this is the first.
fn shown_block(random: &mut Random, first: usize) -> usize {
    code_block(first, random.below(3))
}

fn any_cell(random: &mut Random, part: Part) -> Cell {
    Cell {
        part,
        c: random.byte(),
        b: random.byte(),
        a: random.byte(),
    }
}

/// A cell that is double height, double width, both or, now and then, neither.
fn double_cell(random: &mut Random, part: Part) -> Cell {
    let mut cell = any_cell(random, part);
    if !random.one_in(6) {
        cell.b = bichrome_b(cell) | random.choice(&[0x02, 0x08, 0x0A]);
    }
    cell
}

/// Two to six cells. About half differ from the one before them in one bit alone, so that cells
/// which only look the same are neighbours.
fn few_cells(random: &mut Random, part: Part) -> Vec<Cell> {
    let mut cells = vec![double_cell(random, part)];
    for at in 0..1 + random.below(5) {
        let mut cell = cells[at];
        let bit = 1 << random.below(8);
        match random.below(6) {
            0 => cell.c ^= bit,
            1 => cell.b ^= bit,
            2 => cell.a ^= bit,
            _ => cell = double_cell(random, part),
        }
        cells.push(cell);
    }
    cells
}

fn with_gap(random: &mut Random, cell: Cell) -> Cell {
    if random.one_in(12) {
        any_cell(random, cell.part)
    } else {
        cell
    }
}

/// Most often a user cell, or a quadrichrome one or one of the sets Q, whose slices stand in a shown block
/// where the page is in the blocks of those sets.
fn own_cell(random: &mut Random, part: Part, first: usize) -> Cell {
    let mut cell = any_cell(random, part);
    match random.below(5) {
        0 => {}
        1 | 2 => cell.b = 0x80 + cell.b % 0x40,
        _ => {
            let block = shown_block(random, first) % 8;
            cell.b = 0xC0 + 8 * u8::try_from(block).expect("a block is small") + cell.b % 8;
        }
    }
    cell
}

/// Most often a cell with both bits of B and fewer than four of A.
fn short_cell(random: &mut Random, part: Part) -> Cell {
    let mut cell = any_cell(random, part);
    if !random.one_in(6) {
        cell.b |= 0xC0;
        cell.a = short_palette(random);
    }
    cell
}
