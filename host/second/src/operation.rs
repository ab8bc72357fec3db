//! One operation: a thing that a host may ask of the processor, as a value.

#[derive(Clone, Copy, Debug, PartialEq, Eq)]
pub enum Operation {
    /// Of a board with a part, by its number, and so many blocks.
    PowerUp {
        part: u8,
        blocks: u8,
    },
    Write {
        address: u8,
        value: u8,
    },
    Read {
        address: u8,
    },
    /// One character position of a move, if one runs.
    Step,
    Turn {
        phase: u8,
    },
    Draw,
}
