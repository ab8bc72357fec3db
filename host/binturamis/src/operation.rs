//! The operations over what a host lends: a processor and slices of any length.

use crate::answer::Answer;
use crate::board::Board;
use crate::engine;
use crate::redrawn::Redrawn;
use crate::refusal::{Refusal, RefusedRead};
use crate::size::{PROCESSOR_BYTES, STATE_BYTES};
use crate::state::State;

/// A processor: the registers, whether a move runs, the marks, the phase, the part and the board, in
/// bytes that are the library's.
///
/// A clone goes with clones of the memory and the picture that the processor belongs to: the kept
/// picture is right only if each operation has the state that the one before it left.
#[derive(Clone, Debug, PartialEq, Eq)]
#[repr(C)]
pub struct Processor {
    bytes: [u8; PROCESSOR_BYTES],
}

impl Processor {
    /// Of an EF9345 with 16 blocks: all registers and both LX bits 0, command 91 hex, phase 0, every row
    /// marked. Memory and picture may hold anything.
    pub fn power_up() -> Processor {
        let mut processor = Processor::of_bytes([0; PROCESSOR_BYTES]);
        engine::power_up(&mut processor);
        processor
    }

    /// The same of a board, to which every operation then lends [`Board::memory_bytes`], and a draw
    /// [`Board::rom_bytes`].
    ///
    /// ```
    /// use binturamis::{Board, Processor, Refusal};
    ///
    /// let mut processor = Processor::power_up_board(Board::Two);
    /// let mut memory = vec![0; Board::Two.memory_bytes()];
    /// for (address, value) in [(0x26, 0x08), (0x27, 0x80), (0x20, 0x30)] {
    ///     binturamis::write(&mut processor, &mut memory, address, value)?; // block 1, and OCT
    /// }
    /// assert_eq!(binturamis::write(&mut processor, &mut memory, 0x29, 0x41), Ok(()));
    /// assert_eq!(memory[1024 + 256], 0x41);
    ///
    /// // Block 2 is not fitted.
    /// binturamis::write(&mut processor, &mut memory, 0x27, 0x40)?;
    /// let refused = binturamis::write(&mut processor, &mut memory, 0x29, 0x41);
    /// assert_eq!(refused, Err(Refusal::NotFitted));
    /// # Ok::<(), Refusal>(())
    /// ```
    pub fn power_up_board(board: Board) -> Processor {
        let mut processor = Processor::of_bytes([0; PROCESSOR_BYTES]);
        let powered = power_up(&mut processor, board.part().number(), board.blocks());
        powered.expect("the library has every board");
        processor
    }

    /// A processor that was kept as bytes. Bytes that no operation has left still get a defined
    /// answer from each.
    pub fn of_bytes(bytes: [u8; PROCESSOR_BYTES]) -> Processor {
        Processor { bytes }
    }

    /// The bytes, to be kept.
    pub fn bytes(&self) -> &[u8; PROCESSOR_BYTES] {
        &self.bytes
    }

    pub fn state(&self) -> State {
        State::of_bytes(&self.state_bytes())
    }

    /// The state as the 48 bytes of the C interface.
    pub fn state_bytes(&self) -> [u8; STATE_BYTES] {
        engine::state(self)
    }
}

/// Powers a processor up as the part of this number, with so many blocks, whatever it was before.
/// Refusals: 14, 12, and then it is an EF9345 with 16 blocks.
///
/// ```
/// use binturamis::{Part, Processor, Refusal};
///
/// let (ef9345, ts9347) = (Part::Ef9345.number(), Part::Ts9347.number());
/// let mut processor = Processor::power_up();
/// assert_eq!(binturamis::power_up(&mut processor, ef9345, 8), Ok(()));
/// assert_eq!((processor.state().part, processor.state().blocks), (0, 8));
/// assert_eq!(binturamis::power_up(&mut processor, ts9347, 32), Ok(()));
/// assert_eq!((processor.state().part, processor.state().blocks), (1, 32));
///
/// // The EF9345 has no board of 32 blocks, and there is no part 2.
/// let refused = binturamis::power_up(&mut processor, ef9345, 32);
/// assert_eq!(refused, Err(Refusal::WrongBoard));
/// assert_eq!(processor, Processor::power_up());
/// assert_eq!(binturamis::power_up(&mut processor, 2, 32), Err(Refusal::UnknownPart));
/// ```
pub fn power_up(processor: &mut Processor, part: u8, blocks: u8) -> Result<(), Refusal> {
    let answered = engine::power_up_board(processor, part, blocks);
    Answer::of(answered).done()
}

/// Writes the value to the register at the address, and then runs the command if the address asks
/// for it. Refusals: 1, 2, 10, 3, 4, 11.
///
/// ```
/// use binturamis::{Processor, Refusal, MEMORY_BYTES};
///
/// let mut processor = Processor::power_up();
/// let mut memory = vec![0; MEMORY_BYTES];
/// binturamis::write(&mut processor, &mut memory, 0x21, 0x08)?;
/// assert_eq!(processor.state().r1, 0x08);
///
/// let refused = binturamis::write(&mut processor, &mut memory[1..], 0x21, 0x09);
/// assert_eq!(refused, Err(Refusal::WrongMemory));
/// # Ok::<(), Refusal>(())
/// ```
pub fn write(
    processor: &mut Processor,
    memory: &mut [u8],
    address: u8,
    value: u8,
) -> Result<(), Refusal> {
    let answered = engine::write(processor, memory, address, value);
    Answer::of(answered).done()
}

/// Reads the register at the address, and then runs the command if the address asks for it: so a
/// read may store too. The value is the register's from before the command. Refusals: 1, 2, 10, 3, 4,
/// 11.
///
/// ```
/// use binturamis::{Processor, Refusal, MEMORY_BYTES};
///
/// let mut processor = Processor::power_up();
/// let mut memory = vec![0; MEMORY_BYTES];
/// binturamis::write(&mut processor, &mut memory, 0x20, 0x05)?; // a command that is not listed
/// binturamis::write(&mut processor, &mut memory, 0x21, 0x4B)?;
/// assert_eq!(binturamis::read(&mut processor, &mut memory, 0x21), Ok(0x4B));
///
/// // The same with execution: it is refused, and the value is not lost.
/// let refused = binturamis::read(&mut processor, &mut memory, 0x29).unwrap_err();
/// assert_eq!(refused.refusal(), Refusal::NotListed);
/// assert_eq!(refused.value(), Some(0x4B));
/// # Ok::<(), Refusal>(())
/// ```
pub fn read(processor: &mut Processor, memory: &mut [u8], address: u8) -> Result<u8, RefusedRead> {
    let answer = Answer::of(engine::read(processor, memory, address));
    answer
        .accepted()
        .map_err(|refusal| RefusedRead::new(refusal, answer.value))
}

/// Lets the move that runs go on by one character position: 1, 2 or 3 bytes. While none runs it changes
/// nothing. Refusals: 1.
///
/// A move is started by a command, MVB, MVD or MVT. With a stop it ends within 40 steps, and without one it
/// runs until a NOP, 90 or 91 hex, is written to address 28. Until then [`State::is_busy`] says so, and
/// every other access than that NOP and a status read at address 20 is refused by 10.
///
/// ```
/// use binturamis::{Processor, Refusal, MEMORY_BYTES};
///
/// let mut processor = Processor::power_up();
/// let mut memory = vec![0; MEMORY_BYTES];
/// memory[..3].copy_from_slice(b"Rye");
/// for (address, value) in [
///     (0x26, 0x00), (0x27, 0x00), // the main pointer to X 0 and Y 0 of block 0,
///     (0x24, 0x08), (0x25, 37), // the auxiliary one to X 37 and Y 8:
///     (0x28, 0xD5), // MVB from the main pointer, with a stop
/// ] {
///     binturamis::write(&mut processor, &mut memory, address, value)?;
/// }
/// assert_eq!(binturamis::write(&mut processor, &mut memory, 0x21, 0), Err(Refusal::Busy));
///
/// let mut steps = 0;
/// while processor.state().is_busy() {
///     binturamis::step(&mut processor, &mut memory)?;
///     steps += 1;
/// }
/// assert_eq!(steps, 3); // the destination's X was 39 in the third
/// assert_eq!(memory[69..72], *b"Rye"); // 64 + 37 - 32
/// # Ok::<(), Refusal>(())
/// ```
pub fn step(processor: &mut Processor, memory: &mut [u8]) -> Result<(), Refusal> {
    let answered = engine::step(processor, memory);
    Answer::of(answered).done()
}

/// Sets the phase, 0 or 1; a changed one marks the rows with a cell that flashes. Refusals: 1, 9.
///
/// ```
/// use binturamis::{Processor, Refusal, MEMORY_BYTES};
///
/// let mut processor = Processor::power_up();
/// let memory = vec![0; MEMORY_BYTES];
/// binturamis::turn(&mut processor, &memory, 1)?;
/// assert_eq!(processor.state().phase, 1);
/// assert_eq!(binturamis::turn(&mut processor, &memory, 2), Err(Refusal::WrongPhase));
/// # Ok::<(), Refusal>(())
/// ```
pub fn turn(processor: &mut Processor, memory: &[u8], phase: u8) -> Result<(), Refusal> {
    let answered = engine::turn(processor, memory, phase);
    Answer::of(answered).done()
}

/// Draws the marked rows into the picture, touches no other byte of it, and clears the marks.
/// Refusals: 1, 5, 7, 6, 8.
///
/// Another picture than before may be lent whenever every row is marked, as after a change of TGS.
/// [`State::width`] says how long it must be.
///
/// ```
/// use binturamis::{Processor, Refusal, MEMORY_BYTES, PICTURE_BYTES, ROM_BYTES};
///
/// let mut processor = Processor::power_up();
/// let mut memory = vec![0; MEMORY_BYTES];
/// let rom = vec![0; ROM_BYTES];
/// let mut picture = vec![0xEE; PICTURE_BYTES];
/// let refused = binturamis::draw(&mut processor, &memory, &rom, &mut picture);
/// assert_eq!(refused, Err(Refusal::LowOrigin));
/// assert_eq!(picture, [0xEE; PICTURE_BYTES]);
///
/// binturamis::write(&mut processor, &mut memory, 0x21, 0x08)?; // an origin,
/// binturamis::write(&mut processor, &mut memory, 0x28, 0x87)?; // to ROR
/// let redrawn = binturamis::draw(&mut processor, &memory, &rom, &mut picture)?;
/// assert_eq!(redrawn.count(), 25);
/// assert_eq!(picture, [0; PICTURE_BYTES]);
/// # Ok::<(), Refusal>(())
/// ```
pub fn draw(
    processor: &mut Processor,
    memory: &[u8],
    rom: &[u8],
    picture: &mut [u8],
) -> Result<Redrawn, Refusal> {
    let before = processor.state();
    let answered = engine::draw(processor, memory, rom, picture);
    let count = Answer::of(answered).accepted()?;
    Ok(Redrawn::new(count, &before))
}
