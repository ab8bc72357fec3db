//! How many cells passed each of some tests, by the tests' names.

use std::fmt;

pub struct Counts {
    names: Vec<&'static str>,
    cells: Vec<usize>,
}

impl Counts {
    pub fn of(names: &[&'static str]) -> Counts {
        Counts {
            names: names.to_vec(),
            cells: vec![0; names.len()],
        }
    }

    /// A cell that has passed a test, or has not, by the test's place among the names.
    pub fn add(&mut self, test: usize, has_passed: bool) {
        self.cells[test] += usize::from(has_passed);
    }

    /// Fails where fewer cells than `least` passed a test, but for those named.
    pub fn assert_at_least(&self, least: usize, but_for: &[&str]) {
        for (name, count) in self.names.iter().zip(&self.cells) {
            let is_rare = *count < least && !but_for.contains(name);
            assert!(!is_rare, "{name}: only {count} cells");
        }
    }
}

impl fmt::Display for Counts {
    fn fmt(&self, to: &mut fmt::Formatter) -> fmt::Result {
        for (name, count) in self.names.iter().zip(&self.cells) {
            writeln!(to, "{name}: {count} cells")?;
        }
        Ok(())
    }
}
