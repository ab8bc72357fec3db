//! Accesses played into the library, with the steps of the moves that they start.

use std::fmt::{self, Display, Formatter};

use binturamis::{Board, Panel, Refusal, Width};

use crate::access::Access;

/// The steps within which a move with a stop ends.
pub const STEPS: usize = 40;

/// How the accesses were answered.
#[derive(Clone, Copy, Debug, PartialEq, Eq)]
pub struct Played {
    pub accesses: usize,
    pub refused: usize,
    pub first: Option<Refused>,
    /// The move that still runs after the last access.
    pub running: Option<Started>,
}

/// A refused access and its place among the others, counted from 1.
#[derive(Clone, Copy, Debug, PartialEq, Eq)]
pub struct Refused {
    pub number: usize,
    pub access: Access,
    pub refusal: Refusal,
    /// The move that runs, where the access is refused for it.
    pub running: Option<Started>,
}

/// A move: the place of the access that started it, counted from 1, and the steps that it has made.
#[derive(Clone, Copy, Debug, PartialEq, Eq)]
pub struct Started {
    pub number: usize,
    pub steps: usize,
}

/// Writes every access, and lets each move that one starts end with its row, if it has a stop.
pub fn play(panel: &mut Panel, accesses: &[Access]) -> Played {
    play_in_steps(panel, accesses, STEPS)
}

/// Writes every access; a refused one does not stop those after it. A move makes so many steps after the
/// access that started it, or fewer if it ends before.
pub fn play_in_steps(panel: &mut Panel, accesses: &[Access], limit: usize) -> Played {
    let mut played = Played {
        accesses: accesses.len(),
        refused: 0,
        first: None,
        running: None,
    };
    for (number, access) in (1..).zip(accesses) {
        match panel.write(access.address, access.value) {
            Ok(()) => played.running = moved(panel, number, limit),
            Err(refusal) => {
                played.refused += 1;
                played.first.get_or_insert(Refused {
                    number,
                    access: *access,
                    refusal,
                    running: played.running.filter(|_| refusal == Refusal::Busy),
                });
            }
        }
    }
    played
}

/// The steps after an accepted access, and the move that then still runs. While one runs no access is
/// accepted but the NOP that ends it, so it is this one that has started it.
fn moved(panel: &mut Panel, number: usize, limit: usize) -> Option<Started> {
    let stepped = panel.finish(limit).expect("the memory is the board's");
    let steps = stepped.steps;
    (!stepped.is_idle).then_some(Started { number, steps })
}

/// The width of the page that the accesses ask for, with so many steps for each move. It depends on the
/// board, since TGS may get what a command has read, or was refused to read; it does not depend on the ROM.
pub fn width(board: Board, accesses: &[Access], limit: usize) -> Width {
    let rom = vec![0; board.rom_bytes()];
    let mut panel = Panel::with_board(board, &rom).expect("the ROM is as long as the board's");
    play_in_steps(&mut panel, accesses, limit);
    panel.state().width()
}

impl Display for Refused {
    fn fmt(&self, out: &mut Formatter) -> fmt::Result {
        let Access { address, value } = self.access;
        write!(
            out,
            "access {}, at byte {}, the value {value:02X} to the address {address:02X}: {}",
            self.number,
            2 * (self.number - 1),
            self.refusal
        )?;
        match self.running {
            Some(running) => write!(out, "; {running}"),
            None => Ok(()),
        }
    }
}

impl Display for Started {
    fn fmt(&self, out: &mut Formatter) -> fmt::Result {
        let (number, byte, steps) = (self.number, 2 * (self.number - 1), self.steps);
        let noun = if steps == 1 { "step" } else { "steps" };
        write!(
            out,
            "the move that access {number}, at byte {byte}, started has made {steps} {noun}"
        )
    }
}
