//! A picture in black and white, for a terminal without colour.
//!
//! In a cell of more colours than one the darkest is its ground and turns black, the others white:
//! what is written there stays legible, dark on light too. A cell of one colour turns white, unless
//! it is black or the ground of another cell of its row: so a filled bar is seen, and a space between
//! two words on red is not.

use crate::colour::Colour;
use crate::raster::{Raster, CELL_LINES};

pub fn two_tone(raster: &Raster) -> Raster {
    let rows = raster.height.div_ceil(CELL_LINES);
    let grounds: Vec<[bool; 8]> = (0..rows).map(|row| grounds(raster, row)).collect();
    let size = (raster.width, raster.height);
    Raster::drawn(size, raster.cell_width, |column, line| {
        let colour = raster.at(column, line);
        let is_ground = match ground(&raster.cell_counts(column, line)) {
            Some(ground) => colour == ground,
            None => grounds[line / CELL_LINES][usize::from(colour.number())],
        };
        if is_ground {
            Colour::Black
        } else {
            Colour::White
        }
    })
}

/// Black, and the grounds of the cells of a row that have more colours than one.
fn grounds(raster: &Raster, row: usize) -> [bool; 8] {
    let mut grounds = [false; 8];
    grounds[usize::from(Colour::Black.number())] = true;
    for column in (0..raster.width).step_by(raster.cell_width) {
        if let Some(ground) = ground(&raster.cell_counts(column, CELL_LINES * row)) {
            grounds[usize::from(ground.number())] = true;
        }
    }
    grounds
}

/// The darkest colour of a cell, if it has more than one.
fn ground(counts: &[usize; 8]) -> Option<Colour> {
    let mut there = Vec::from(Colour::ALL);
    there.retain(|colour| counts[usize::from(colour.number())] > 0);
    let darkest = there
        .iter()
        .copied()
        .min_by_key(|colour| colour.brightness());
    darkest.filter(|_| there.len() > 1)
}
