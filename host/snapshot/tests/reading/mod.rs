//! Reads back what the package writes, by code of its own: a PNG and coloured text.
//!
//! It shares nothing with the code that writes them but the type that they are compared as.
#![allow(dead_code)]

pub mod inflate;
pub mod png;
pub mod text;
