//! A picture as a number of colour a pixel, which is easier to cut up than packed lines.

use binturamis::{Panel, ROWS};

use crate::colour::Colour;

/// The lines of a cell.
pub const CELL_LINES: usize = 10;

/// Pixels, line after line.
#[derive(Clone, Debug, PartialEq, Eq)]
pub struct Raster {
    pub width: usize,
    pub height: usize,
    /// The pixels of a cell across: eight, or six in 80 columns.
    pub cell_width: usize,
    pub pixels: Vec<Colour>,
}

impl Raster {
    /// The picture of a panel, in the width that it was drawn in: two pixels a byte, the left one in
    /// the low four bits.
    pub fn of_panel(panel: &Panel) -> Raster {
        let pair =
            |byte: &u8| [byte & 7, byte >> 4 & 7].map(|number| Colour::ALL[usize::from(number)]);
        let width = 2 * panel.width().line_bytes();
        Raster {
            width,
            height: CELL_LINES * ROWS,
            cell_width: width / panel.width().columns(),
            pixels: panel.picture().iter().flat_map(pair).collect(),
        }
    }

    /// A raster whose pixels are asked for by column and line.
    pub fn drawn(
        (width, height): (usize, usize),
        cell_width: usize,
        pixel: impl Fn(usize, usize) -> Colour,
    ) -> Raster {
        let places = (0..height).flat_map(|line| (0..width).map(move |column| (column, line)));
        Raster {
            width,
            height,
            cell_width,
            pixels: places.map(|(column, line)| pixel(column, line)).collect(),
        }
    }

    pub fn at(&self, column: usize, line: usize) -> Colour {
        self.pixels[self.width * line + column]
    }

    /// The pixel, or black beyond the edge.
    pub fn at_or_black(&self, column: usize, line: usize) -> Colour {
        if column < self.width && line < self.height {
            self.at(column, line)
        } else {
            Colour::Black
        }
    }

    /// How many pixels of each colour a part has, from a column and a line on, cut at the edges.
    pub fn counts(&self, from: (usize, usize), size: (usize, usize)) -> [usize; 8] {
        let mut counts = [0; 8];
        for line in from.1..self.height.min(from.1 + size.1) {
            for column in from.0..self.width.min(from.0 + size.0) {
                counts[usize::from(self.at(column, line).number())] += 1;
            }
        }
        counts
    }

    /// The counts of the cell that a pixel is in.
    pub fn cell_counts(&self, column: usize, line: usize) -> [usize; 8] {
        let cell = (self.cell_width, CELL_LINES);
        let corner = (column - column % cell.0, line - line % cell.1);
        self.counts(corner, cell)
    }
}
