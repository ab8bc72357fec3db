//! A drawing of mosaics as text, and its cells: `#` is a window that is set, `.` one that is not. A
//! cell has two windows by five.

use crate::grid::grid;

const ACROSS: usize = 2;
const DOWN: usize = 5;

/// The windows of each cell, row by row of cells. What is wrong with a drawing is told in words.
pub fn mosaics(drawing: &str) -> Result<Vec<Vec<u16>>, String> {
    let lines = grid(drawing, is_set, (ACROSS, DOWN))?;
    Ok(lines.chunks(DOWN).map(row).collect())
}

fn is_set(mark: char) -> Result<bool, String> {
    match mark {
        '#' => Ok(true),
        '.' => Ok(false),
        _ => Err(format!("`{mark}` is no window of a drawing")),
    }
}

/// The cells of five lines of windows.
fn row(lines: &[Vec<bool>]) -> Vec<u16> {
    let columns = (0..lines[0].len()).step_by(ACROSS);
    columns.map(|column| mosaic(lines, column)).collect()
}

/// The ten windows of a cell in reading order, the first in the lowest bit.
fn mosaic(lines: &[Vec<bool>], column: usize) -> u16 {
    let windows = lines.iter().flat_map(|line| &line[column..column + ACROSS]);
    let bits = windows
        .zip(0..)
        .map(|(window, place)| u16::from(*window) << place);
    bits.sum()
}
