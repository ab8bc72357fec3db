//! The sets of characters, and which of them a B byte names on either part.

/// The sets, with a mark for the user's. Q stands for all eight of the later part's user sets Q, whose
/// number is in B.
#[derive(Clone, Copy, Debug, PartialEq, Eq)]
pub enum Set {
    G0,
    G10,
    G11,
    G20,
    G21,
    Goe,
    UserG0,
    UserG10,
    UserG11,
    Q,
}

impl Set {
    /// The set of a bichrome cell of the EF9345, from B7 to B4; nothing for a quadrichrome cell.
    pub fn of_ef9345(b: u8) -> Option<Set> {
        match b >> 4 {
            0b0000 | 0b0001 => Some(Set::G0),
            0b0010 => Some(Set::G10),
            0b0011 => Some(Set::G11),
            0b0100 | 0b0101 => Some(Set::G20),
            0b0110 | 0b0111 => Some(Set::G21),
            0b1000 | 0b1001 => Some(Set::UserG0),
            0b1010 => Some(Set::UserG10),
            0b1011 => Some(Set::UserG11),
            _ => None,
        }
    }

    /// The set of a cell of the TS9347: "B7 = 0, B5 = 0: G0 [..]; B7 = 0, B5 = 1: B4 0 G10, 1 GOE [..] (B6
    /// is not looked at). 100U: user G'0 [..]. 101s: user G'1s [..]. 11: user set Q".
    pub fn of_ts9347(b: u8) -> Set {
        let [b7, b6, b5, b4] = [b >> 7, b >> 6 & 1, b >> 5 & 1, b >> 4 & 1];
        match (b7, b6, b5, b4) {
            (0, _, 0, _) => Set::G0,
            (0, _, _, 0) => Set::G10,
            (0, _, _, _) => Set::Goe,
            (_, 0, 0, _) => Set::UserG0,
            (_, 0, _, 0) => Set::UserG10,
            (_, 0, _, _) => Set::UserG11,
            _ => Set::Q,
        }
    }

    /// "Only U sets are alphanumeric": those whose code leaves B4 to the underline.
    pub fn is_alphanumeric(self) -> bool {
        matches!(self, Set::G0 | Set::G20 | Set::G21 | Set::UserG0)
    }
}
