//! The demonstration pages as the library draws them.

use binturamis::{Board, Panel};
use snapshot::access::Access;
use snapshot::panel::play;
use snapshot::raster::Raster;
use snapshot::{demonstration, recipes, scroll};

/// The page of 40 columns, the one of 80, that of 40 as a TS9347 has it, and the list that was scrolled.
pub fn rasters() -> [Raster; 4] {
    let (wide, _) = rom::demonstration().expect("the texts are right");
    let (narrow, _) = rom::narrow().expect("the texts are right");
    let (of_ts9347, _) = rom::ts9347::demonstration().expect("the texts are right");
    [
        raster(Board::Sixteen, &wide, &demonstration::page()),
        raster(Board::Sixteen, &narrow, &recipes::page()),
        raster(Board::ThirtyTwo, &of_ts9347, &demonstration::ts9347()),
        raster(Board::Sixteen, &wide, &scroll::scrolled()),
    ]
}

fn raster(board: Board, rom: &[u8], accesses: &[Access]) -> Raster {
    let mut panel = Panel::with_board(board, rom).expect("the ROM is the part's");
    play(&mut panel, accesses);
    panel.draw().expect("the page can be drawn");
    Raster::of_panel(&panel)
}
