//! The types of cell that the TS9347 has.

use second::cell::Cell;
use second::set::Set;

pub const TYPES: [(&str, Set); 7] = [
    ("G0", Set::G0),
    ("G10", Set::G10),
    ("GOE", Set::Goe),
    ("G'0", Set::UserG0),
    ("G'10", Set::UserG10),
    ("G'11", Set::UserG11),
    ("Q", Set::Q),
];

/// The place of a cell's type among them.
pub fn type_of(cell: Cell) -> usize {
    let number = TYPES.iter().position(|(_, set)| Some(*set) == cell.set());
    number.unwrap_or_else(|| panic!("{cell:?} has no type of the TS9347"))
}
