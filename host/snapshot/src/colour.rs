//! The eight colours by name.

/// A colour; its number is its place here. Bit 0 of the number is red, 1 green and 2 blue.
#[derive(Clone, Copy, Debug, PartialEq, Eq, PartialOrd, Ord)]
pub enum Colour {
    Black,
    Red,
    Green,
    Yellow,
    Blue,
    Magenta,
    Cyan,
    White,
}

impl Colour {
    pub const ALL: [Colour; 8] = [
        Colour::Black,
        Colour::Red,
        Colour::Green,
        Colour::Yellow,
        Colour::Blue,
        Colour::Magenta,
        Colour::Cyan,
        Colour::White,
    ];

    pub fn number(self) -> u8 {
        self as u8
    }

    /// The parts of red, green and blue, each none or all.
    pub fn red_green_blue(self) -> [u8; 3] {
        [0, 1, 2].map(|bit| 255 * (self.number() >> bit & 1))
    }

    /// How bright it looks beside the others, from 0 to 7: green counts most and blue least.
    pub fn brightness(self) -> u8 {
        let has = |bit: u8| self.number() >> bit & 1;
        4 * has(1) + 2 * has(0) + has(2)
    }
}
