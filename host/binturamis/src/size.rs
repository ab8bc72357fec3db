//! The sizes of what is lent, in bytes, and of the picture in 40 columns and in 80.

/// The bytes of a block of private memory.
pub const BLOCK_BYTES: usize = 1_024;
/// The bytes of private memory of the EF9345's board of sixteen blocks;
/// [`Board::memory_bytes`](crate::Board::memory_bytes) has those of another.
pub const MEMORY_BYTES: usize = 16 * BLOCK_BYTES;
/// The bytes of private memory of the TS9347's board.
pub const TS9347_MEMORY_BYTES: usize = 32 * BLOCK_BYTES;
/// The bytes of the EF9345's character ROM: five sets of 128 characters of ten slices, in the order G0,
/// G10, G11, G20, G21.
pub const ROM_BYTES: usize = 6_400;
/// The bytes of the TS9347's character ROM: three sets of 128 characters of ten slices, in the order
/// G10, GOE, G0, a blank standing where the part has no character.
pub const TS9347_ROM_BYTES: usize = 3_840;
/// The bytes of a processor.
pub const PROCESSOR_BYTES: usize = 64;
/// The bytes in which the state is told.
pub const STATE_BYTES: usize = 48;
/// The rows of the screen, the service row among them.
pub const ROWS: usize = 25;

/// The cells of a row, in 40 columns.
pub const COLUMNS: usize = 40;
/// The bytes of the picture in 40 columns: 320 by 250 pixels, two a byte, the left one in the low
/// four bits.
pub const PICTURE_BYTES: usize = ROWS * ROW_BYTES;
/// The bytes of a row of the picture in 40 columns: ten lines.
pub const ROW_BYTES: usize = 10 * LINE_BYTES;
/// The bytes of one line of the picture in 40 columns.
pub const LINE_BYTES: usize = 160;

/// The cells of a row, in 80 columns.
pub const COLUMNS_80: usize = 80;
/// The bytes of the picture in 80 columns: 480 by 250 pixels, packed as in 40.
pub const PICTURE_BYTES_80: usize = ROWS * ROW_BYTES_80;
/// The bytes of a row of the picture in 80 columns: ten lines.
pub const ROW_BYTES_80: usize = 10 * LINE_BYTES_80;
/// The bytes of one line of the picture in 80 columns.
pub const LINE_BYTES_80: usize = 240;
