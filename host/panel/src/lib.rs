//! The program `panel` of the rules, run on bytes. It is compiled for x86-64 and this package for
//! whatever machine it runs on, so the two meet through standard input and output.

pub mod kit;
pub mod program;
pub mod writes;
