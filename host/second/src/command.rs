//! The listed commands, each by its literal bytes.

use crate::address::code_block;
use crate::part::Part;
use crate::pointer::Which;

/// The five indirect registers.
#[derive(Clone, Copy, Debug, PartialEq, Eq)]
pub enum Indirect {
    Tgs,
    Mat,
    Pat,
    Dor,
    Ror,
}

#[derive(Clone, Copy, Debug, PartialEq, Eq)]
pub enum Command {
    Nop,
    Ind {
        register: Indirect,
        read: bool,
    },
    Krf {
        increment: bool,
        read: bool,
    },
    Krl {
        increment: bool,
        read: bool,
    },
    Oct {
        pointer: Which,
        increment: bool,
        read: bool,
    },
    Move(Move),
}

/// MVB, MVD or MVT.
#[derive(Clone, Copy, Debug, PartialEq, Eq)]
pub struct Move {
    /// Of one character position: 1, 2 or 3.
    pub bytes: usize,
    pub source: Which,
    /// Whether it ends at the end of a row, or runs "until a NOP is executed".
    pub stop: bool,
}

impl Command {
    /// The command of a byte, or nothing for a byte that neither the page nor a request lists
    /// (refusal 3). The TS9347 executes "NOP, IND, KRF and OCT", and KRL and the moves not.
    pub fn listed(part: Part, byte: u8) -> Option<Command> {
        match byte {
            0x90 | 0x91 => Some(Command::Nop),
            0x00 | 0x01 | 0x08 | 0x09 => Some(Command::Krf {
                increment: byte % 2 == 1,
                read: byte >= 0x08,
            }),
            0x50 | 0x51 | 0x58 | 0x59 if part == Part::Ef9345 => Some(Command::Krl {
                increment: byte % 2 == 1,
                read: byte >= 0x58,
            }),
            0x30 | 0x31 | 0x34 | 0x35 | 0x38 | 0x39 | 0x3C | 0x3D => Some(oct(byte - 0x30)),
            0x80..=0x87 => ind(byte - 0x80, false),
            0x88..=0x8F => ind(byte - 0x88, true),
            0xD5 | 0xD6 | 0xD9 | 0xDA => one_move(part, 1, byte - 0xD0),
            0xE5 | 0xE6 | 0xE9 | 0xEA => one_move(part, 2, byte - 0xE0),
            0xF5 | 0xF6 | 0xF9 | 0xFA => one_move(part, 3, byte - 0xF0),
            _ => None,
        }
    }

    /// The pointers that the command uses; IND and NOP use none, so that they never get refusal 4, and a
    /// move uses both: "4 now covers either pointer".
    pub fn pointers(self) -> &'static [Which] {
        match self {
            Command::Nop | Command::Ind { .. } => &[],
            Command::Krf { .. } | Command::Krl { .. } => &[Which::Main],
            Command::Oct { pointer, .. } => match pointer {
                Which::Main => &[Which::Main],
                Which::Auxiliary => &[Which::Auxiliary],
            },
            Command::Move(_) => &[Which::Main, Which::Auxiliary],
        }
    }

    /// The blocks of the command's bytes, where a pointer of it has block `z`: "KRF three blocks, OCT one,
    /// KRL two, moves all of both pointers", read forms too. KRL's second is the attributes'. "IND and NOP
    /// never get" refusal 11.
    pub fn blocks(self, z: usize) -> Vec<usize> {
        match self {
            Command::Nop | Command::Ind { .. } => vec![],
            Command::Krf { .. } => vec![code_block(z, 0), code_block(z, 1), code_block(z, 2)],
            Command::Krl { .. } => vec![z, attributes_block(z)],
            Command::Oct { .. } => vec![z],
            Command::Move(run) => (0..run.bytes).map(|byte| code_block(z, byte)).collect(),
        }
    }
}

impl Move {
    /// The pointer to which it moves: the other one.
    pub fn destination(self) -> Which {
        match self.source {
            Which::Main => Which::Auxiliary,
            Which::Auxiliary => Which::Main,
        }
    }
}

/// "The attributes are at X, Y in block Z with Z0 = 0, plus 2 modulo 4 inside the district."
pub fn attributes_block(z: usize) -> usize {
    code_block(z - z % 2, 2)
}

/// IND by its r; "Other r: refusal 3".
fn ind(r: u8, read: bool) -> Option<Command> {
    let register = match r {
        1 => Indirect::Tgs,
        2 => Indirect::Mat,
        3 => Indirect::Pat,
        4 => Indirect::Dor,
        7 => Indirect::Ror,
        _ => return None,
    };
    Some(Command::Ind { register, read })
}

/// OCT by what is added to 30: "plus 1 increment, plus 4 auxiliary pointer, plus 8 read".
fn oct(added: u8) -> Command {
    let pointer = if added / 4 % 2 == 1 {
        Which::Auxiliary
    } else {
        Which::Main
    };
    Command::Oct {
        pointer,
        increment: added % 2 == 1,
        read: added / 8 == 1,
    }
}

/// A move by its low nibble: "bits 3..2: 01 the main pointer is the source, 10 the auxiliary one; bits
/// 1..0: 01 with a stop, 10 without". The TS9347 has none.
fn one_move(part: Part, bytes: usize, low: u8) -> Option<Command> {
    let source = if low / 4 == 1 {
        Which::Main
    } else {
        Which::Auxiliary
    };
    let run = Move {
        bytes,
        source,
        stop: low % 4 == 1,
    };
    (part == Part::Ef9345).then_some(Command::Move(run))
}
