//! A picture reduced by whole numbers, so that strokes are kept.

use crate::colour::Colour;
use crate::raster::Raster;

/// Each pixel stands for a part of some pixels across and some down.
pub fn reduced(raster: &Raster, across: usize, down: usize) -> Raster {
    let size = (raster.width.div_ceil(across), raster.height.div_ceil(down));
    let cell_width = raster.cell_width.div_ceil(across);
    Raster::drawn(size, cell_width, |column, line| {
        of_part(raster, (across * column, down * line), (across, down))
    })
}

/// The commonest colour of a part; but the ground of the cell around it, which is its commonest
/// colour, gives way to a stroke that takes half of the part. So a stroke one pixel wide is seen.
fn of_part(raster: &Raster, from: (usize, usize), size: (usize, usize)) -> Colour {
    let ground = commonest(&raster.cell_counts(from.0, from.1));
    let counts = raster.counts(from, size);
    let mut strokes = counts;
    strokes[ground] = 0;
    let stroke = commonest(&strokes);
    let pixels: usize = counts.iter().sum();
    if 2 * strokes[stroke] >= pixels {
        Colour::ALL[stroke]
    } else {
        Colour::ALL[commonest(&counts)]
    }
}

/// The number of the commonest colour, the lowest of equals.
fn commonest(counts: &[usize; 8]) -> usize {
    let mut best = 0;
    for number in 1..8 {
        if counts[number] > counts[best] {
            best = number;
        }
    }
    best
}
