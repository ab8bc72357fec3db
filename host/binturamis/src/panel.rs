//! A panel: a processor that owns its memory, its ROM and its picture.

use std::fmt;

use crate::board::Board;
use crate::operation::{self, Processor};
use crate::redrawn::Redrawn;
use crate::refusal::{Refusal, RefusedRead};
use crate::size::ROM_BYTES;
use crate::state::State;
use crate::stepped::Stepped;
use crate::width::Width;

/// A processor with what it needs, so that the premises of the kept picture hold by themselves:
/// nobody else writes the memory or the picture, and the ROM stays.
///
/// The buffers have the right lengths, so that an access gets of the refusals 2, 10, 3, 4 and 11, a step
/// none, a phase change 9, and a draw 7 and 8. The boards of 16 and 32 blocks never get 11, and a TS9347,
/// which has no moves, never gets 10.
///
/// ```
/// use binturamis::{Panel, Refusal, LINE_BYTES, ROM_BYTES};
///
/// let mut panel = Panel::new([0; ROM_BYTES]);
/// assert_eq!(panel.draw(), Err(Refusal::LowOrigin)); // until an origin is set
///
/// // The origin to ROR, the user sets to DOR; then a slice by OCT and a cell by KRF.
/// for (address, value) in [
///     (0x21, 0x08), (0x28, 0x87), (0x21, 0x03), (0x28, 0x84), (0x26, 0x00), (0x27, 0xC0),
///     (0x20, 0x30), (0x29, 0x52), (0x20, 0x00), (0x26, 0x08), (0x27, 0x00), (0x22, 0x80),
///     (0x23, 0x70), (0x29, 0x00),
/// ] {
///     panel.write(address, value)?;
/// }
/// assert_eq!(panel.draw()?.count(), 25);
/// let line = &panel.picture()[10 * LINE_BYTES..];
/// assert_eq!(line[..8], [0x70, 0x00, 0x07, 0x07, 0, 0, 0, 0]);
/// # Ok::<(), Refusal>(())
/// ```
#[derive(Clone, PartialEq, Eq)]
pub struct Panel {
    processor: Processor,
    board: Board,
    memory: Box<[u8]>,
    rom: Box<[u8]>,
    /// Of the last accepted draw, as is its width.
    picture: Vec<u8>,
    width: Width,
}

impl Panel {
    /// Power-up of an EF9345 with 16 blocks, with its character ROM, zero memory and a zero picture of 40
    /// columns.
    pub fn new(rom: [u8; ROM_BYTES]) -> Panel {
        Panel::power_up(Board::Sixteen, Box::new(rom))
    }

    /// The same of a board, with the character ROM of its part. Refusal: 5, if the ROM has not
    /// [`Board::rom_bytes`].
    ///
    /// ```
    /// use binturamis::{Board, Panel, Refusal, ROM_BYTES, TS9347_ROM_BYTES};
    ///
    /// let mut panel = Panel::with_board(Board::Two, &[0; ROM_BYTES])?;
    /// assert_eq!(panel.board(), Board::Two);
    /// panel.write(0x20, 0x00)?; // KRF, whose third byte would be in block 2
    /// assert_eq!(panel.write(0x29, 0x41), Err(Refusal::NotFitted));
    /// assert_eq!(panel.memory(), [0; 2_048]);
    ///
    /// let panel = Panel::with_board(Board::ThirtyTwo, &[0; TS9347_ROM_BYTES])?;
    /// assert_eq!(panel.memory(), [0; 32_768]);
    /// let refused = Panel::with_board(Board::ThirtyTwo, &[0; ROM_BYTES]);
    /// assert_eq!(refused, Err(Refusal::WrongRom));
    /// # Ok::<(), Refusal>(())
    /// ```
    pub fn with_board(board: Board, rom: &[u8]) -> Result<Panel, Refusal> {
        if rom.len() == board.rom_bytes() {
            Ok(Panel::power_up(board, rom.into()))
        } else {
            Err(Refusal::WrongRom)
        }
    }

    /// The ROM has the board's length.
    fn power_up(board: Board, rom: Box<[u8]>) -> Panel {
        Panel {
            processor: Processor::power_up_board(board),
            board,
            memory: vec![0; board.memory_bytes()].into(),
            rom,
            picture: vec![0; Width::Forty.picture_bytes()],
            width: Width::Forty,
        }
    }

    /// Writes a register, and runs the command if the address asks for it. See
    /// [`write`](crate::write()).
    pub fn write(&mut self, address: u8, value: u8) -> Result<(), Refusal> {
        operation::write(&mut self.processor, &mut self.memory[..], address, value)
    }

    /// Reads a register, and runs the command if the address asks for it. See
    /// [`read`](crate::read).
    pub fn read(&mut self, address: u8) -> Result<u8, RefusedRead> {
        operation::read(&mut self.processor, &mut self.memory[..], address)
    }

    /// Lets the move that runs go on by one character position. See [`step`](crate::step).
    pub fn step(&mut self) -> Result<(), Refusal> {
        operation::step(&mut self.processor, &mut self.memory[..])
    }

    /// Steps until no move runs, but not more often than the limit: a move with a stop ends within 40
    /// steps, and one without never does. Where none runs, no step is made.
    ///
    /// ```
    /// use binturamis::{Panel, Refusal, Stepped, ROM_BYTES};
    ///
    /// let mut panel = Panel::new([0; ROM_BYTES]);
    /// panel.write(0x26, 8)?; // the main pointer to Y 8,
    /// panel.write(0x24, 9)?; // the auxiliary one to Y 9:
    /// panel.write(0x28, 0xF5)?; // MVT from the main pointer, with a stop, copies the row.
    /// assert!(panel.is_busy());
    /// let stepped = panel.finish(40)?;
    /// assert_eq!(stepped, Stepped { steps: 40, is_idle: true });
    ///
    /// panel.write(0x28, 0xFA)?; // MVT from the auxiliary pointer, without a stop
    /// let stepped = panel.finish(960)?;
    /// assert_eq!(stepped, Stepped { steps: 960, is_idle: false });
    /// panel.write(0x28, 0x91)?; // NOP ends it.
    /// assert_eq!(panel.finish(960)?, Stepped { steps: 0, is_idle: true });
    /// # Ok::<(), Refusal>(())
    /// ```
    pub fn finish(&mut self, limit: usize) -> Result<Stepped, Refusal> {
        let mut steps = 0;
        while steps < limit && self.is_busy() {
            self.step()?;
            steps += 1;
        }
        let is_idle = !self.is_busy();
        Ok(Stepped { steps, is_idle })
    }

    /// Whether a move runs. See [`State::is_busy`].
    pub fn is_busy(&self) -> bool {
        self.state().is_busy()
    }

    /// Sets the phase. See [`turn`](crate::turn).
    pub fn turn(&mut self, phase: u8) -> Result<(), Refusal> {
        operation::turn(&mut self.processor, &self.memory[..], phase)
    }

    /// Draws the marked rows into the panel's picture. See [`draw`](crate::draw).
    ///
    /// Where TGS asks for the other width than the last accepted draw had, a picture of that width
    /// takes the place of the one before. Every row is marked then, so all of it is drawn.
    pub fn draw(&mut self) -> Result<Redrawn, Refusal> {
        let width = self.state().width();
        let (memory, rom) = (&self.memory[..], &self.rom[..]);
        if width == self.width {
            return operation::draw(&mut self.processor, memory, rom, &mut self.picture);
        }
        // A refused draw leaves the picture that there was.
        let mut other = vec![0; width.picture_bytes()];
        let redrawn = operation::draw(&mut self.processor, memory, rom, &mut other)?;
        (self.picture, self.width) = (other, width);
        Ok(redrawn)
    }

    /// The picture as the last accepted draw left it, of 40,000 bytes or of 60,000.
    pub fn picture(&self) -> &[u8] {
        &self.picture
    }

    /// The width of the picture. It is that of the last accepted draw, and 40 columns before there
    /// was one; [`State::width`] is that of the next.
    pub fn width(&self) -> Width {
        self.width
    }

    /// The bytes of a row of the picture: 1,600, or 2,400 in 80 columns.
    ///
    /// # Panics
    ///
    /// If there is no such row: they are 0 to 24.
    pub fn row(&self, row: usize) -> &[u8] {
        self.width.row_of(&self.picture, row)
    }

    pub fn board(&self) -> Board {
        self.board
    }

    /// The private memory, as long as the board has it.
    pub fn memory(&self) -> &[u8] {
        &self.memory
    }

    /// The character ROM, as long as the part has it.
    pub fn rom(&self) -> &[u8] {
        &self.rom
    }

    pub fn processor(&self) -> &Processor {
        &self.processor
    }

    pub fn state(&self) -> State {
        self.processor.state()
    }
}

/// The state alone: the buffers are up to 82,784 bytes.
impl fmt::Debug for Panel {
    fn fmt(&self, to: &mut fmt::Formatter) -> fmt::Result {
        to.debug_struct("Panel")
            .field("state", &self.state())
            .finish_non_exhaustive()
    }
}
