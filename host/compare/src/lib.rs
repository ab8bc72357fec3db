//! The comparison: what the library answers and leaves is held to what the second program answers
//! and leaves, which was written from the rules alone. The library is called through its Rust
//! interface, `host/binturamis`, and so through its C interface.
//!
//! There are random sequences of operations and random pages, in 40 columns and in 80 and on each of the
//! four boards, three with the EF9345 and one with the TS9347, and both count what they met, so that tame
//! ones are seen.

pub mod amount;
pub mod asked;
pub mod codes;
pub mod desk;
pub mod difference;
pub mod eighty_columns;
pub mod filling;
pub mod forty_columns;
pub mod lengths;
mod library;
pub mod met;
pub mod page;
pub mod pair;
pub mod position;
pub mod report;
mod second_program;
pub mod seen;
pub mod short;
pub mod trial;
pub mod types;
pub mod unplanned;
