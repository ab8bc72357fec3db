//! The eight colours by name, and the colour of a rank in a palette.

#[derive(Clone, Copy, Debug, PartialEq, Eq)]
pub enum Colour {
    Black,
    Red,
    Green,
    Yellow,
    Blue,
    Magenta,
    Cyan,
    White,
}

/// The colours in the order of their numbers.
pub const COLOURS: [Colour; 8] = [
    Colour::Black,
    Colour::Red,
    Colour::Green,
    Colour::Yellow,
    Colour::Blue,
    Colour::Magenta,
    Colour::Cyan,
    Colour::White,
];

impl Colour {
    /// The colour that three bits name; higher bits of `number` are not looked at.
    pub fn numbered(number: u8) -> Colour {
        COLOURS[usize::from(number % 8)]
    }

    /// The number, which is also the four bits of a pixel.
    pub fn number(self) -> u8 {
        self as u8
    }
}

/// "A's set bits are the palette".
pub fn in_palette(palette: u8, colour: Colour) -> bool {
    (palette >> colour.number()) & 1 == 1
}

/// "The rank of a colour is the number of set bits below it in A".
pub fn rank(palette: u8, colour: Colour) -> usize {
    COLOURS
        .iter()
        .filter(|below| below.number() < colour.number() && in_palette(palette, **below))
        .count()
}

/// The colour of a rank by search through the palette. "Missing ranks become colour 7".
pub fn colour_of_rank(palette: u8, wanted: usize) -> Colour {
    for colour in COLOURS {
        if in_palette(palette, colour) && rank(palette, colour) == wanted {
            return colour;
        }
    }
    Colour::White
}
