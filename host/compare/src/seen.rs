//! What the compared pages showed, counted, so that a tame choice of pages is seen.

mod board;
mod counts;
mod eighty;
mod forty;
mod places;
mod shown;
mod ts9347;

pub use board::SeenBoard;
pub use eighty::SeenEighty;
pub use forty::SeenForty;
pub use ts9347::{SeenTs9347, BELOW_UNMARKED};
