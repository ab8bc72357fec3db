//! What the child has of a lent buffer, so that it is sent only what it lacks; and what a call has
//! changed.

use std::io::{self, Read};
use std::ops::Range;

#[derive(Default)]
pub struct Known {
    bytes: Vec<u8>,
}

/// The bytes that a call has put from `start` on.
pub struct Change {
    start: usize,
    bytes: Vec<u8>,
}

impl Known {
    /// Adds to a request what turns the child's buffer into the lent one.
    pub fn catch_up(&mut self, lent: &[u8], request: &mut Vec<u8>) {
        self.bytes.resize(lent.len(), 0);
        let span = difference(&self.bytes, lent);
        for number in [lent.len(), span.start, span.len()] {
            request.extend((number as u64).to_le_bytes());
        }
        request.extend(&lent[span.clone()]);
        self.bytes[span.clone()].copy_from_slice(&lent[span]);
    }

    /// Reads from an answer what the call has changed.
    pub fn change(&mut self, from: &mut impl Read) -> io::Result<Change> {
        let (start, count) = (number(from)?, number(from)?);
        let mut bytes = vec![0; count];
        from.read_exact(&mut bytes)?;
        let change = Change { start, bytes };
        change.make(&mut self.bytes);
        Ok(change)
    }
}

impl Change {
    pub fn make(&self, buffer: &mut [u8]) {
        buffer[self.start..][..self.bytes.len()].copy_from_slice(&self.bytes);
    }

    /// Fails where the library has written what it may only read.
    pub fn assert_none(&self, name: &str) {
        let start = self.start;
        assert!(
            self.bytes.is_empty(),
            "the library has changed the {name}, which it may only read, from byte {start} on"
        );
    }
}

/// From the first to the last byte in which two buffers of one length differ.
fn difference(known: &[u8], lent: &[u8]) -> Range<usize> {
    // Most often there is none, and this comparison is the fast one.
    if known == lent {
        return 0..0;
    }
    let differs = |at: &usize| known[*at] != lent[*at];
    let first = (0..lent.len()).find(differs);
    let last = (0..lent.len()).rfind(differs);
    match (first, last) {
        (Some(first), Some(last)) => first..last + 1,
        _ => 0..0,
    }
}

fn number(from: &mut impl Read) -> io::Result<usize> {
    let mut bytes = [0; 8];
    from.read_exact(&mut bytes)?;
    usize::try_from(u64::from_le_bytes(bytes)).map_err(io::Error::other)
}
