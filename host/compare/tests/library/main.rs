//! The library held to the second program.

mod any_bytes;
mod boards;
mod codes;
mod drawn;
mod eighty_columns;
mod forty_columns;
mod fresh;
mod krl;
mod moves;
mod operations;
mod palettes;
mod partial;
mod ts9347;
