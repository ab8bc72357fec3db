//! The rules in which a slip can be planted.

use crate::address::code_block;
use crate::command::Indirect;
use crate::marks;
use crate::mode::Mode;
use crate::moves;
use crate::packing::with_nibble;
use crate::page::Page;
use crate::part::Part;
use crate::picture::View;
use crate::pointer::{Pointer, Which};

/// A method that is not replaced is the right rule, so that a wrong one can be tried without a word
/// of it standing in the right ones.
pub trait Rules {
    /// The pointer that a command of a part uses.
    fn pointer(&self, part: Part, registers: &[u8; 8], which: Which) -> Pointer {
        Pointer::of(part, registers, which)
    }

    /// The bytes of a row that a draw puts into the picture.
    fn row(&self, view: &View, row: usize) -> Vec<u8> {
        view.row(row)
    }

    /// Whether a store to a place marks a row of the page just before it.
    fn store_marks(&self, page: &Page, row: usize, place: usize) -> bool {
        marks::by_store(page, row, place)
    }

    /// Whether a store of a step marks a row of the page just before it: "Each stored byte marks rows by the
    /// usual list".
    fn step_marks(&self, page: &Page, row: usize, place: usize) -> bool {
        self.store_marks(page, row, place)
    }

    /// The block of byte 0, 1 or 2 of a move from or to block `first`.
    fn moved_block(&self, first: usize, byte: usize) -> usize {
        code_block(first, byte)
    }

    /// The byte that a move takes up, by the one that was there before the step and the one that is there
    /// now: "a byte stored is seen by a later read of the same step".
    fn moved_byte(&self, _before: u8, now: u8) -> u8 {
        now
    }

    /// Whether Y of a pointer goes on where its X passes 39 in a move without a stop.
    fn goes_down(&self, which: Which) -> bool {
        which == Which::Main
    }

    /// The Y to which a move goes on.
    fn next_y(&self, y: u8) -> u8 {
        moves::next_y(y)
    }

    /// Whether a move with a stop ends with the step that had these Xs.
    fn ends(&self, source: usize, destination: usize) -> bool {
        source == 39 || destination == 39
    }

    /// Whether an access gets 10 while busy, if it is none of the two that do not.
    fn refuses_while_busy(&self) -> bool {
        true
    }

    /// Whether a changed value of a register marks every row, with the modes before and after it.
    fn register_marks(
        &self,
        register: Indirect,
        _before: Option<Mode>,
        after: Option<Mode>,
    ) -> bool {
        marks::by_register(register, after)
    }

    /// Whether a changed phase marks a row of the page.
    fn phase_marks(&self, page: &Page, row: usize) -> bool {
        marks::by_phase(page, row)
    }

    /// The byte of attributes that a write by KRL stores where `packed` was.
    fn attributes(&self, packed: u8, r3: u8, odd: bool) -> u8 {
        with_nibble(packed, r3, odd)
    }
}

/// The right rules, all of them.
#[derive(Clone, Copy, Debug, PartialEq, Eq)]
pub struct PageRules;

impl Rules for PageRules {}
