//! Binturamis takes the place of the EF9345 display processor, and of the later TS9347: a host writes
//! and reads the eight registers, and the library keeps the private memory and draws the page of 25 rows
//! and 40 or 80 columns, only the rows that have changed.
//!
//! [`Panel`] owns a processor with its memory, its ROM and its picture. [`power_up`], [`write()`],
//! [`read`], [`step`], [`turn`] and [`draw`] do the same to a [`Processor`] and slices of the caller's,
//! which may have any length; a wrong one is refused. Each refusal is a [`Refusal`], which has its number
//! in the rules. A [`Board`], which is a [`Part`] with the blocks of its memory, is chosen at power-up;
//! without a choice it is an EF9345 with 16 blocks.
//!
//! ```
//! use binturamis::{Panel, Refusal, ROM_BYTES};
//!
//! fn show(panel: &mut Panel, push: impl Fn(usize, &[u8])) -> Result<(), Refusal> {
//!     let redrawn = panel.draw()?;
//!     for (row, bytes) in redrawn.rows_of(panel.picture()) {
//!         push(row, bytes);
//!     }
//!     Ok(())
//! }
//!
//! let mut panel = Panel::new([0; ROM_BYTES]);
//! panel.write(0x21, 0x08)?; // R1 is 8,
//! panel.write(0x28, 0x87)?; // and goes to ROR by IND: the origin of the page.
//! show(&mut panel, |row, bytes| println!("row {row} has {} bytes", bytes.len()))?;
//! # Ok::<(), Refusal>(())
//! ```
//!
//! A move, which copies bytes from one place of the memory to another, goes on by one position a
//! [`step`](Panel::step), and until it has ended no register can be written: [`Panel::finish`] steps so
//! far.
//!
//! What is called is the proved library and nothing else. It is compiled for x86-64, where it is
//! linked; on any other machine each call is carried out by a child process under an emulator,
//! which is slower by far and answers the same. `make library` makes what is needed for either.
#![deny(unsafe_code)]

mod answer;
mod board;
#[cfg_attr(target_arch = "x86_64", path = "linked.rs")]
#[cfg_attr(not(target_arch = "x86_64"), path = "bridged/mod.rs")]
mod engine;
mod operation;
mod panel;
mod part;
mod redrawn;
mod refusal;
mod size;
mod state;
mod stepped;
mod width;

/// The version of this package, which is the library's.
pub const VERSION: &str = env!("CARGO_PKG_VERSION");

pub use board::Board;
pub use operation::{draw, power_up, read, step, turn, write, Processor};
pub use panel::Panel;
pub use part::Part;
pub use redrawn::Redrawn;
pub use refusal::{Refusal, RefusedRead};
pub use size::{
    BLOCK_BYTES, COLUMNS, COLUMNS_80, LINE_BYTES, LINE_BYTES_80, MEMORY_BYTES, PICTURE_BYTES,
    PICTURE_BYTES_80, PROCESSOR_BYTES, ROM_BYTES, ROWS, ROW_BYTES, ROW_BYTES_80, STATE_BYTES,
    TS9347_MEMORY_BYTES, TS9347_ROM_BYTES,
};
pub use state::{State, STATUS_BUSY};
pub use stepped::Stepped;
pub use width::{Width, TGS_80};
