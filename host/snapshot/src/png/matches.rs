//! What of some bytes was there before: the copies that deflate makes instead of bytes.

use std::collections::HashMap;

/// A part of the bytes.
#[derive(Clone, Copy, Debug, PartialEq, Eq)]
pub enum Part {
    Byte(u8),
    /// So many bytes from so far back, which may run into what they make.
    Copy {
        length: usize,
        distance: usize,
    },
}

const SHORTEST: usize = 3;
const LONGEST: usize = 258;
const FARTHEST: usize = 32_768;
/// How many places are tried: more would find little more.
const TRIED: usize = 64;

/// The parts that the bytes are made of, each copy the longest of those tried.
pub fn found(content: &[u8]) -> Vec<Part> {
    let mut places = Places::default();
    let mut parts = Vec::new();
    let mut at = 0;
    while at < content.len() {
        let part = places
            .longest(content, at)
            .unwrap_or(Part::Byte(content[at]));
        let end = match part {
            Part::Byte(_) => at + 1,
            Part::Copy { length, .. } => at + length,
        };
        (at..end).for_each(|at| places.add(content, at));
        parts.push(part);
        at = end;
    }
    parts
}

/// Where each three bytes have begun so far.
#[derive(Default)]
struct Places<'a> {
    of: HashMap<&'a [u8], Vec<usize>>,
}

impl<'a> Places<'a> {
    fn add(&mut self, content: &'a [u8], at: usize) {
        if let Some(three) = content.get(at..at + SHORTEST) {
            self.of.entry(three).or_default().push(at);
        }
    }

    fn longest(&self, content: &[u8], at: usize) -> Option<Part> {
        let before = self.of.get(content.get(at..at + SHORTEST)?)?;
        let near = before.iter().rev().take(TRIED);
        let mut best = None;
        let mut best_length = 0;
        for &from in near.filter(|from| at - **from <= FARTHEST) {
            let length = common(content, from, at);
            if length > best_length {
                best_length = length;
                best = Some(Part::Copy {
                    length,
                    distance: at - from,
                });
            }
        }
        best
    }
}

/// How long the bytes from two places on are the same.
fn common(content: &[u8], from: usize, at: usize) -> usize {
    let pairs = content[from..].iter().zip(&content[at..]);
    pairs
        .take(LONGEST)
        .take_while(|(before, now)| before == now)
        .count()
}
