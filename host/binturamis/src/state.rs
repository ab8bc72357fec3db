//! The state of a processor, told by name.

use crate::part::Part;
use crate::size::{ROWS, STATE_BYTES};
use crate::width::Width;

/// The bit of the status that says that a move runs.
pub const STATUS_BUSY: u8 = 0x80;

/// What a processor holds. It is told, not lent: changing it changes nothing.
///
/// ```
/// use binturamis::Panel;
///
/// let mut panel = Panel::new([0; binturamis::ROM_BYTES]);
/// panel.write(0x26, 8)?;
/// let state = panel.state();
/// assert_eq!((state.r6, state.command, state.phase), (8, 0x91, 0));
/// assert_eq!(state.marks, [true; binturamis::ROWS]);
/// # Ok::<(), binturamis::Refusal>(())
/// ```
#[derive(Clone, Copy, Debug, PartialEq, Eq)]
pub struct State {
    pub r1: u8,
    pub r2: u8,
    pub r3: u8,
    pub r4: u8,
    pub r5: u8,
    pub r6: u8,
    pub r7: u8,
    /// R0 as it was written last.
    pub command: u8,
    /// R0 as it is read: bit 7 busy, 6 set if either LX is set, 5 LXm, 4 LXa.
    pub status: u8,
    pub tgs: u8,
    pub mat: u8,
    pub pat: u8,
    pub dor: u8,
    pub ror: u8,
    pub phase: u8,
    /// The rows that the next draw redraws.
    pub marks: [bool; ROWS],
    /// The part's number: 0 an EF9345, 1 a TS9347.
    pub part: u8,
    /// The blocks of the board: 2, 8 or 16 of an EF9345, 32 of a TS9347.
    pub blocks: u8,
}

impl State {
    /// The state that the 48 bytes of the C interface tell.
    pub fn of_bytes(bytes: &[u8; STATE_BYTES]) -> State {
        let mut marks = [false; ROWS];
        for (mark, byte) in marks.iter_mut().zip(&bytes[15..]) {
            *mark = *byte != 0;
        }
        State {
            r1: bytes[0],
            r2: bytes[1],
            r3: bytes[2],
            r4: bytes[3],
            r5: bytes[4],
            r6: bytes[5],
            r7: bytes[6],
            command: bytes[7],
            status: bytes[8],
            tgs: bytes[9],
            mat: bytes[10],
            pat: bytes[11],
            dor: bytes[12],
            ror: bytes[13],
            phase: bytes[14],
            marks,
            part: bytes[40],
            blocks: bytes[41],
        }
    }

    /// Whether a move runs: then accesses are refused by 10, but for a status read at address 20 and a NOP
    /// written to address 28.
    pub fn is_busy(&self) -> bool {
        self.status & STATUS_BUSY != 0
    }

    /// The width of the page, which says how long a picture a draw asks for. A TS9347 has no page of 80
    /// columns: where TGS asks it for one, a draw is refused, whatever picture it is lent.
    pub fn width(&self) -> Width {
        match Part::from_number(self.part) {
            Ok(Part::Ts9347) => Width::Forty,
            _ => Width::of_tgs(self.tgs),
        }
    }
}
