//! The five sets of an EF9345's ROM, in the order in which it holds them.

/// The codes of a set: C modulo 128.
pub const CODES: usize = 128;

/// A set of the ROM. The order of the cases is the order of the sets in its bytes.
#[derive(Clone, Copy, Debug, PartialEq, Eq, PartialOrd, Ord, Hash)]
pub enum Set {
    G0,
    G10,
    G11,
    G20,
    G21,
}

impl Set {
    pub const ALL: [Set; 5] = [Set::G0, Set::G10, Set::G11, Set::G20, Set::G21];

    /// The set of a name as it stands in a heading.
    pub fn named(name: &str) -> Option<Set> {
        Set::ALL.into_iter().find(|set| set.name() == name)
    }

    pub fn name(self) -> &'static str {
        match self {
            Set::G0 => "G0",
            Set::G10 => "G10",
            Set::G11 => "G11",
            Set::G20 => "G20",
            Set::G21 => "G21",
        }
    }
}
