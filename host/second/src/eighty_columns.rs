//! The application note's 80 column program, as the register accesses that it makes.
//!
//! The listing is damaged in places, and the object code beside it decides. The attribute nibble
//! `#S0C` is `$CC` by the object code, repeated in R3 as its comment says. ADDA stands beside 88,
//! which would be EORA and gives the same sum here; that of STA, JSR and `LDA R1` is printed as 87,
//! 8D and 86 in places, for B7, BD and B6. `LDX #$2000` and `STX R2` put 20 hex in R2 and 0 in R3.
//!
//! ROR is 28 hex by source and object code, while the main pointer's 28 and 2A hex are Y 8 and 10 in
//! block 4, which B is loaded with too. By the rules' bits ROR names block 2 so, and the strings show
//! where it is 48 hex. The CLF command (05), which would have filled block 0, is not listed and gets
//! refusal 3.

use crate::operation::Operation;

/// The ROR of the listing, and the one that shows the block of the strings.
pub const PRINTED_ROR: u8 = 0x28;
pub const STRINGS_ROR: u8 = 0x48;

/// The strings' first characters, R6 and R3: flashing and negative, then underlined. R7 is 0.
const STRINGS: [(u8, u8, u8); 2] = [(b'A', 0x28, 0xCC), (b'K', 0x2A, 0x22)];

/// "LOOP COUNTER FOR 10 CHARACTERS".
const CHARACTERS: u8 = 10;

/// The turns of the endless loop that are taken: the origins from 8 to 30, and 8 once more.
const TURNS: usize = 24;

/// The accesses in their order, with a value for ROR.
pub fn program(ror: u8) -> Vec<Operation> {
    let mut listing = Listing::default();
    listing.write(0x28, 0x91);
    for (r, value) in [(1, 0xC0), (2, 0x4C), (3, 0x7F), (4, 0x8F), (7, ror)] {
        listing.busy();
        listing.write(0x21, value);
        listing.write(0x28, 0x80 + r);
    }
    listing.fill();
    listing.busy();
    listing.write(0x20, 0x51);
    for (first, down, attributes) in STRINGS {
        listing.string(first, down, attributes);
    }
    listing.roll_up(ror);
    listing.accesses
}

#[derive(Default)]
struct Listing {
    accesses: Vec<Operation>,
}

impl Listing {
    fn write(&mut self, address: u8, value: u8) {
        self.accesses.push(Operation::Write { address, value });
    }

    fn read(&mut self, address: u8) {
        self.accesses.push(Operation::Read { address });
    }

    /// BUSY: the status, which is never busy.
    fn busy(&mut self) {
        self.read(0x20);
    }

    /// MPFILL: the codes, the start of the service row, CLF, and the NOP that ends it.
    fn fill(&mut self) {
        self.busy();
        for (address, value) in [
            (0x21, 0x20),
            (0x22, 0x20),
            (0x23, 0x00),
            (0x26, 0x00),
            (0x27, 0x00),
            (0x28, 0x05),
            (0x28, 0x91),
        ] {
            self.write(address, value);
        }
    }

    /// Ten characters by KRL with increment, one after the other in the code.
    fn string(&mut self, first: u8, down: u8, attributes: u8) {
        self.write(0x26, down);
        self.write(0x27, 0x00);
        self.write(0x23, attributes);
        for character in first..first + CHARACTERS {
            self.write(0x29, character);
            self.busy();
        }
    }

    /// ROR is read, and then written again and again, each time one more, so that the rows roll up.
    /// Origin 31 is left out: "IF YOR=31, SET YOR=8".
    fn roll_up(&mut self, ror: u8) {
        self.busy();
        self.write(0x28, 0x8F);
        self.busy();
        self.read(0x21);
        self.write(0x20, 0x87);
        let mut a = ror;
        for _ in 0..TURNS {
            self.write(0x29, a);
            self.busy();
            a += 1;
            if a % 32 == 31 {
                a = (a & 0xE0) + 8;
            }
        }
    }
}
