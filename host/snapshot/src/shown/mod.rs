//! A picture as text for a terminal: block characters, with colour or without.

pub mod blocks;
pub mod fit;
pub mod reduced;
pub mod two_tone;

use crate::raster::Raster;
use blocks::Grain;
use fit::Fit;
use reduced::reduced;
use two_tone::two_tone;

/// The picture as it is shown in a terminal, and the line that goes with it. Where the terminal's
/// width is not known, every pixel is shown.
pub fn shown(raster: &Raster, width: Option<usize>, has_colour: bool) -> (String, String) {
    let fit = Fit::of(raster.width, width.unwrap_or_else(|| enough(raster)));
    let fitted = |raster: &Raster| reduced(raster, fit.across, fit.down());
    let text = if has_colour {
        blocks::coloured(&fitted(raster), fit.grain)
    } else {
        blocks::plain(&fitted(&two_tone(raster)), fit.grain)
    };
    (text, note(raster, fit))
}

/// The columns that show every pixel, at the least.
fn enough(raster: &Raster) -> usize {
    raster.width.div_ceil(Grain::Quarter.across())
}

/// Says what is seen, and how to see the whole.
fn note(raster: &Raster, fit: Fit) -> String {
    let size = format!("{} by {} pixels", raster.width, raster.height);
    let columns = fit.columns(raster.width);
    match fit.across {
        1 => format!("{size}, every one shown, in {columns} columns."),
        across => format!(
            "{size}, {across} across shown as one, in {columns} columns: {} columns show every one, as does --png.",
            enough(raster)
        ),
    }
}
