//! Cells in 80 columns: their code of twelve bits, drawings of mosaics, and the writer that stores
//! them.

pub mod code;
pub mod mosaics;
pub mod writer;
