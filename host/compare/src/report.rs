//! The answer of an operation with the whole state after it.

use binturamis::{PROCESSOR_BYTES, STATE_BYTES};
use second::{Answer, Processor, ROWS};

/// Flags are kept as bytes, so that a byte which is neither 0 nor 1 is a difference.
#[derive(Clone, Debug, PartialEq, Eq)]
pub struct Report {
    pub number: u8,
    /// The rows, if it is a draw's.
    pub value: u8,
    pub registers: [u8; 8],
    /// By r.
    pub indirect: [u8; 8],
    pub lxm: u8,
    pub lxa: u8,
    /// Whether a move runs.
    pub busy: u8,
    pub phase: u8,
    pub marks: [u8; ROWS],
    /// Of the board.
    pub part: u8,
    pub blocks: u8,
}

impl Report {
    /// What the second program answers and leaves. It has no indirect registers but the five of
    /// the rules page: the others stay 0.
    pub fn wanted(answer: Answer, left: &Processor) -> Report {
        let (part, blocks) = left.board.numbers();
        Report {
            number: answer.number,
            value: answer.value,
            registers: left.registers,
            indirect: [0, left.tgs, left.mat, left.pat, left.dor, 0, 0, left.ror],
            lxm: u8::from(left.lx_main),
            lxa: u8::from(left.lx_auxiliary),
            busy: u8::from(left.busy),
            phase: left.phase,
            marks: left.marks.map(u8::from),
            part,
            blocks,
        }
    }

    /// What the library answers and leaves, by the 48 bytes in which it tells its state. Of the
    /// status LXm, LXa and busy are kept, since a status that is not theirs fails here.
    pub fn told(answer: Answer, state: &[u8; STATE_BYTES]) -> Report {
        let (busy, [lxm, lxa]) = (state[8] / 0x80, lx_bits(state[8] % 0x80));
        assert_eq!(state[42..], [0; 6], "the bytes past the blocks");
        let [tgs, mat, pat, dor, ror] = part(state, 9);
        Report {
            number: answer.number,
            value: answer.value,
            registers: [
                state[7], state[0], state[1], state[2], state[3], state[4], state[5], state[6],
            ],
            indirect: [0, tgs, mat, pat, dor, 0, 0, ror],
            lxm,
            lxa,
            busy,
            phase: state[14],
            marks: part(state, 15),
            part: state[40],
            blocks: state[41],
        }
    }

    /// The bytes that the library keeps of a processor in this state. They have all eight indirect
    /// registers, while it tells five. Of the boards that of 16 blocks is a 0, and that of 32, the TS9347's, a
    /// 4; in the same byte 16 more says that a move runs.
    pub fn packed(&self) -> [u8; PROCESSOR_BYTES] {
        let flags = [self.lxm, self.lxa, self.phase];
        let parts: [&[u8]; 4] = [&self.registers, &self.indirect, &flags, &self.marks];
        let mut bytes = parts.concat();
        let board = match self.blocks {
            16 => 0,
            32 => 4,
            blocks => blocks,
        };
        bytes.push(board + 16 * self.busy);
        bytes.resize(PROCESSOR_BYTES, 0);
        part(&bytes, 0)
    }
}

/// LXm and LXa of a status without its bit 7: "bit 7 busy, 6 set if either LX is set, 5 LXm, 4 LXa, others
/// 0".
fn lx_bits(status: u8) -> [u8; 2] {
    match status {
        0b0000_0000 => [0, 0],
        0b0110_0000 => [1, 0],
        0b0101_0000 => [0, 1],
        0b0111_0000 => [1, 1],
        _ => panic!("the status is {status:02X}"),
    }
}

fn part<const N: usize>(bytes: &[u8], from: usize) -> [u8; N] {
    let mut part = [0; N];
    part.copy_from_slice(&bytes[from..from + N]);
    part
}
