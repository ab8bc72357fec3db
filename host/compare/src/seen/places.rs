//! Where the compared pages were kept, and the phases that they were drawn in.

use std::fmt;

use second::Part;

use crate::page::Page;

#[derive(Default)]
pub struct Places {
    origins: [usize; 24],
    /// By half their number, since they are even.
    first_blocks: [usize; 16],
    phases: [usize; 2],
    rows: usize,
}

impl Places {
    pub fn look(&mut self, page: &Page) {
        self.origins[usize::from(page.ror % 32 - 8)] += 1;
        self.first_blocks[page.second().first_block() / 2] += 1;
        self.phases[usize::from(page.phase)] += 1;
        self.rows += page.marked_rows().count();
    }

    /// Fails where an origin, a first block that a part names or a phase was not seen.
    pub fn assert_every_one(&self, part: Part) {
        let named = &self.first_blocks[..part.named_blocks() / 2];
        let places = self.origins.iter().chain(named);
        let mut pages = places.chain(&self.phases);
        assert!(pages.all(|count| *count > 0), "{self}");
    }
}

impl fmt::Display for Places {
    fn fmt(&self, to: &mut fmt::Formatter) -> fmt::Result {
        writeln!(to, "pages of each origin 8 to 31: {:?}", self.origins)?;
        writeln!(to, "pages of each first block: {:?}", self.first_blocks)?;
        writeln!(to, "pages of each phase: {:?}", self.phases)?;
        write!(to, "rows redrawn: {}", self.rows)
    }
}
