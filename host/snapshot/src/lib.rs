//! Shows the page that register accesses draw, in the terminal and as a PNG, and holds the
//! demonstration pages, one of 40 columns for either part, one of 80 for the EF9345 and a list that it
//! scrolls: the accesses with which a plant's controller would program the chip.

pub mod access;
pub mod arguments;
pub mod code;
pub mod colour;
pub mod demonstration;
pub mod drawing;
pub mod eighty;
pub mod grid;
pub mod panel;
pub mod png;
pub mod quadrichrome;
pub mod raster;
pub mod recipes;
pub mod registers;
pub mod scroll;
pub mod shown;
pub mod terminal;
pub mod two_colours;
pub mod writer;
