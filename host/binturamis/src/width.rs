//! The two widths of a page, and what has another length in each.

use crate::size::{
    COLUMNS, COLUMNS_80, LINE_BYTES, LINE_BYTES_80, PICTURE_BYTES, PICTURE_BYTES_80, ROWS,
    ROW_BYTES, ROW_BYTES_80,
};

/// TGS bits 7 and 6: both set for 80 columns, both clear for 40.
pub const TGS_80: u8 = 0xC0;

/// How many columns a page has.
///
/// ```
/// use binturamis::{Panel, Width, ROM_BYTES};
///
/// let mut panel = Panel::new([0; ROM_BYTES]);
/// assert_eq!(panel.state().width(), Width::Forty);
/// panel.write(0x21, 0xC0)?; // R1 has both bits,
/// panel.write(0x28, 0x81)?; // and goes to TGS by IND.
/// assert_eq!(panel.state().width(), Width::Eighty);
/// assert_eq!(Width::Eighty.picture_bytes(), 60_000);
/// # Ok::<(), binturamis::Refusal>(())
/// ```
#[derive(Clone, Copy, Debug, PartialEq, Eq, PartialOrd, Ord, Hash)]
pub enum Width {
    Forty,
    Eighty,
}

impl Width {
    pub const ALL: [Width; 2] = [Width::Forty, Width::Eighty];

    /// The width that a value of TGS asks for. Where one of the two bits is set alone, which is no
    /// width, the answer is 40: a draw is refused then, whatever picture it is lent.
    pub fn of_tgs(tgs: u8) -> Width {
        if tgs & TGS_80 == TGS_80 {
            Width::Eighty
        } else {
            Width::Forty
        }
    }

    /// The cells of a row.
    pub fn columns(self) -> usize {
        match self {
            Width::Forty => COLUMNS,
            Width::Eighty => COLUMNS_80,
        }
    }

    /// The bytes of one line of the picture, which has two pixels to each.
    pub fn line_bytes(self) -> usize {
        match self {
            Width::Forty => LINE_BYTES,
            Width::Eighty => LINE_BYTES_80,
        }
    }

    /// The bytes of a row of the picture.
    pub fn row_bytes(self) -> usize {
        match self {
            Width::Forty => ROW_BYTES,
            Width::Eighty => ROW_BYTES_80,
        }
    }

    /// The bytes of the picture.
    pub fn picture_bytes(self) -> usize {
        match self {
            Width::Forty => PICTURE_BYTES,
            Width::Eighty => PICTURE_BYTES_80,
        }
    }

    /// The bytes of a row of a picture of this width.
    ///
    /// # Panics
    ///
    /// If the picture has another length, or if there is no such row: they are 0 to 24.
    pub fn row_of(self, picture: &[u8], row: usize) -> &[u8] {
        let (bytes, right) = (picture.len(), self.picture_bytes());
        assert!(bytes == right, "a picture of {bytes} bytes, not {right}");
        assert!(row < ROWS, "row {row}, where the last is {}", ROWS - 1);
        &picture[self.row_bytes() * row..][..self.row_bytes()]
    }
}
