//! The second program: a naive model of the whole base of the rules page and of the change requests
//! that have landed, written from these alone.
//!
//! It says each rule as literally as it can, pixel by pixel and place by place, so that a reader
//! can hold it beside the page, and so that it can stand in judgement over another program.

pub mod address;
pub mod bench;
pub mod bichrome;
pub mod board;
pub mod cell;
pub mod character;
pub mod code;
pub mod colour;
pub mod command;
pub mod eighty;
pub mod eighty_columns;
mod execute;
pub mod forty;
pub mod forty_columns;
pub mod half;
pub mod marks;
pub mod mode;
pub mod mosaic;
mod moves;
pub mod operation;
pub mod packing;
pub mod page;
pub mod panel;
pub mod part;
pub mod picture;
pub mod pointer;
pub mod processor;
pub mod quadrichrome;
pub mod random;
pub mod reading;
pub mod rules;
pub mod sequence;
pub mod set;
pub mod slip;

pub use board::Board;
pub use mode::Mode;
pub use operation::Operation;
pub use panel::panel;
pub use part::Part;
pub use processor::{Answer, Processor};
pub use slip::Slip;

/// The bytes of a block of private memory.
pub const BLOCK: usize = 1_024;
/// The rows of the screen, the service row among them.
pub const ROWS: usize = 25;
/// The columns of a row, each of three bytes: the cells of a row of 40 columns.
pub const COLUMNS: usize = 40;
/// The positions of a row of 80 columns, two to a column: its cells.
pub const POSITIONS: usize = 80;
/// The lines of a row, which are also the slices of a character.
pub const LINES: usize = 10;
