//! The rows that a draw has redrawn, so that a host can push those rows to its screen and no
//! others.

use crate::size::ROWS;
use crate::state::State;
use crate::width::Width;

/// The rows of an accepted draw.
///
/// ```
/// use binturamis::{Panel, ROM_BYTES};
///
/// let mut panel = Panel::new([0; ROM_BYTES]);
/// panel.write(0x21, 8)?; // R1 is 8,
/// panel.write(0x28, 0x87)?; // and goes to ROR by IND: the origin.
/// assert_eq!(panel.draw()?.count(), 25);
///
/// panel.write(0x26, 10)?; // Y 10, which is row 3 of the screen.
/// panel.write(0x23, 0x70)?; // A: white on black,
/// panel.write(0x20, 0x00)?; // stored by KRF
/// panel.write(0x29, 0x41)?; // with C, which executes.
/// let redrawn = panel.draw()?;
/// assert!(redrawn.rows().eq([3]));
/// for (row, bytes) in redrawn.rows_of(panel.picture()) {
///     println!("{} bytes for lines {} to {}", bytes.len(), 10 * row, 10 * row + 9);
/// }
/// # Ok::<(), binturamis::Refusal>(())
/// ```
#[derive(Clone, Copy, Debug, PartialEq, Eq)]
pub struct Redrawn {
    count: u8,
    marks: [bool; ROWS],
    width: Width,
}

impl Redrawn {
    /// The number that the draw answered, and the state before it.
    pub(crate) fn new(count: u8, before: &State) -> Redrawn {
        Redrawn {
            count,
            marks: before.marks,
            width: before.width(),
        }
    }

    /// How many rows: the number that the draw answered.
    pub fn count(&self) -> u8 {
        self.count
    }

    /// The width of the picture.
    pub fn width(&self) -> Width {
        self.width
    }

    /// Whether the row was redrawn; none is that there is not.
    pub fn has(&self, row: usize) -> bool {
        self.marks.get(row) == Some(&true)
    }

    /// The numbers of the rows, rising.
    pub fn rows(&self) -> impl Iterator<Item = usize> + '_ {
        (0..ROWS).filter(|row| self.marks[*row])
    }

    /// The number of each row with its bytes in the picture: 1,600, or 2,400 in 80 columns.
    ///
    /// # Panics
    ///
    /// If the picture is not of the width of the draw, and a row was redrawn.
    pub fn rows_of<'a>(&'a self, picture: &'a [u8]) -> impl Iterator<Item = (usize, &'a [u8])> {
        self.rows()
            .map(|row| (row, self.width.row_of(picture, row)))
    }
}
