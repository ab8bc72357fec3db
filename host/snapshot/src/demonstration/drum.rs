//! The dressing drum with its hopper, tank and bag: quadrichrome cells of an EF9345, and of a TS9347, which
//! has none, cells of a user set in two colours.

use binturamis::Part;

use super::screen::Screen;
use crate::code::{Code, Look};
use crate::colour::Colour::Black;
use crate::{quadrichrome, two_colours};

const DRAWING: &str = include_str!("drum.txt");
/// The characters in a row that a user set has.
const CHARACTERS: std::ops::Range<u8> = 0x20..0x80;
/// Where the drawing begins.
const ROW: usize = 4;
const COLUMN: usize = 28;

/// Of an EF9345 the slices of Q3 are in block 3, the one block of the page's district that the page leaves
/// free.
const Q: u8 = 3;
const BLOCK: u8 = 3;
/// Of a TS9347 they are eight blocks further on, since DOR 7 is set for the page.
const TS9347_BLOCK: u8 = 8 + Q;

pub fn drum(screen: &mut Screen) {
    match screen.part() {
        Part::Ef9345 => of_ef9345(screen),
        Part::Ts9347 => of_ts9347(screen),
    }
}

fn of_ef9345(screen: &mut Screen) {
    let symbols = quadrichrome::symbols(DRAWING).expect("the drawing is right");
    for (character, symbol) in CHARACTERS.zip(symbols) {
        let code = Code::quadrichrome(Q, character, symbol.palette);
        let (row, column) = (ROW + symbol.row, COLUMN + symbol.column);
        screen.symbol(row, column, code, BLOCK, &symbol.slices);
    }
}

fn of_ts9347(screen: &mut Screen) {
    let symbols = two_colours::symbols(DRAWING).expect("the drawing is right");
    for (character, symbol) in CHARACTERS.zip(symbols) {
        let code = Code::of_user_set_q(Q, character, Look::of(symbol.foreground, Black));
        let (row, column) = (ROW + symbol.row, COLUMN + symbol.column);
        screen.symbol(row, column, code, TS9347_BLOCK, &symbol.slices);
    }
}
