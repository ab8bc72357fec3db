//! What the operations of the trials met, counted, so that a tame choice of them is seen.

mod blocks;
mod boards;
mod fitted;
mod in_mode;
mod krl;
mod moves;

use std::fmt;

use second::Mode;

use crate::trial::Step;
use crate::types::TYPES;
pub use blocks::Blocks;
pub use boards::Boards;
pub use fitted::Fitted;
pub use in_mode::InMode;
pub use moves::Moves;

/// On one board.
#[derive(Default)]
pub struct Met {
    /// By the mode before the operation.
    pub forty: InMode,
    pub eighty: InMode,
    /// Where TGS named no mode.
    pub neither: InMode,
    /// Operations that left LXm, or LXa, set.
    lx: [usize; 2],
    /// Cells of a palette of 0, 1, 2 and 3 colours that were redrawn with a rank missing.
    short: [usize; 4],
    /// Cells of each type of the TS9347 that were redrawn, and those of them that are double height.
    types: [[usize; 2]; TYPES.len()],
    pub fitted: Fitted,
    pub blocks: Blocks,
    pub moves: Moves,
}

impl Met {
    pub fn look(&mut self, step: &Step) {
        let in_mode = match step.before.mode() {
            Some(Mode::Forty) => &mut self.forty,
            Some(Mode::Eighty) => &mut self.eighty,
            None => &mut self.neither,
        };
        in_mode.look(step);
        self.lx[0] += usize::from(step.report.lxm);
        self.lx[1] += usize::from(step.report.lxa);
        for (count, cells) in self.short.iter_mut().zip(step.short) {
            *count += cells;
        }
        for (counts, cells) in self.types.iter_mut().zip(step.types) {
            counts[0] += cells[0];
            counts[1] += cells[1];
        }
        self.fitted.look(step);
        self.blocks.look(step);
        self.moves.look(step);
    }

    fn modes(&self) -> [&InMode; 3] {
        [&self.forty, &self.eighty, &self.neither]
    }

    pub fn operations(&self) -> usize {
        self.modes().map(InMode::operations).iter().sum()
    }

    /// How often a number was answered, to whatever operation.
    pub fn times(&self, number: usize) -> usize {
        self.modes().map(|met| met.times(number)).iter().sum()
    }

    /// Fails where an LX bit was left set fewer times than `least`.
    pub fn assert_lx(&self, least: usize) {
        assert!(self.lx.iter().all(|count| *count >= least), "{self}");
    }

    /// Fails where a type of the TS9347's cells, or its double height, was redrawn fewer times than `least`.
    pub fn assert_types(&self, least: usize) {
        let mut cells = self.types.iter().flatten();
        assert!(cells.all(|cells| *cells >= least), "{self}");
    }

    /// Fails where a short palette, of none to three colours, was redrawn fewer times than `least`.
    pub fn assert_short_palettes(&self, least: usize) {
        assert!(self.short.iter().all(|cells| *cells >= least), "{self}");
    }
}

impl fmt::Display for Met {
    fn fmt(&self, to: &mut fmt::Formatter) -> fmt::Result {
        writeln!(to, "operations compared: {}", self.operations())?;
        writeln!(to, "in 40 columns\n{}", self.forty)?;
        writeln!(to, "in 80 columns\n{}", self.eighty)?;
        writeln!(to, "in no mode\n{}", self.neither)?;
        let numbers: Vec<usize> = (0..15).map(|number| self.times(number)).collect();
        writeln!(to, "numbers 0 to 14 in all: {numbers:?} times")?;
        writeln!(to, "{}", self.fitted)?;
        writeln!(to, "{}", self.blocks)?;
        writeln!(to, "{}", self.moves)?;
        let names = TYPES.map(|(name, _)| name);
        writeln!(to, "cells of {names:?}, double height: {:?}", self.types)?;
        writeln!(to, "left with LXm, LXa set: {:?} times", self.lx)?;
        let short = self.short;
        write!(to, "cells of 0 to 3 colours with a rank missing: {short:?}")
    }
}
