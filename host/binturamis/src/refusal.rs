//! Why an operation was refused.

use std::error::Error;
use std::fmt;

/// A refusal, by its number in the rules.
///
/// An access is checked in the order 1, 2, 10, 3, 4, 11, a phase change 1, 9 and a draw 1, 5, 7, 6, 8; the
/// first that applies is given. A step is checked by 1 alone, and a power-up 14, 12. After 3, 4 and 11 the
/// register access itself has happened, and nothing else. After 12 and 14 the processor is an EF9345 with
/// 16 blocks. After every other refusal nothing at all has changed.
///
/// A later number is a new case, and a `match` that has thought of every refusal is then no longer
/// complete: the enum is not `non_exhaustive`, so that the compiler says so.
///
/// ```
/// use binturamis::Refusal;
///
/// assert_eq!(Refusal::LowOrigin.number(), 8);
/// assert_eq!(Refusal::LowOrigin.to_string(), "refusal 8: origin YOR below 8");
/// ```
#[derive(Clone, Copy, Debug, PartialEq, Eq, PartialOrd, Ord, Hash)]
#[repr(u8)]
pub enum Refusal {
    /// Private memory is not 1,024 bytes for each block of the board.
    WrongMemory = 1,
    /// The address's high four bits are not 2.
    WrongAddress = 2,
    /// A command to execute is not listed.
    NotListed = 3,
    /// Its pointer, or either one of a move, has X above 39 or Y from 1 to 7.
    BadPointer = 4,
    /// ROM is not 6,400 bytes, or 3,840 of a TS9347.
    WrongRom = 5,
    /// Picture is not 40,000 bytes, or 60,000 in 80 columns.
    WrongPicture = 6,
    /// TGS bits 7, 6 or 5, or PAT bit 7, not zero; with TGS 7 and 6 both set, TGS 5 or PAT 7 of an
    /// EF9345, while a TS9347 has no page of 80 columns.
    NotBuilt = 7,
    /// Origin YOR below 8.
    LowOrigin = 8,
    /// Phase is not 0 or 1.
    WrongPhase = 9,
    /// A move runs, and the access is neither a status read at address 20 nor a NOP, 90 or 91 hex, written
    /// to address 28.
    Busy = 10,
    /// One of its bytes lies in a block that is not fitted: the board does not have it.
    NotFitted = 11,
    /// The number of blocks is not 2, 8 or 16 of an EF9345, or 32 of a TS9347.
    WrongBoard = 12,
    /// The part is not 0, an EF9345, or 1, a TS9347.
    UnknownPart = 14,
}

impl Refusal {
    /// Every refusal, by rising number.
    pub const ALL: [Refusal; 13] = [
        Refusal::WrongMemory,
        Refusal::WrongAddress,
        Refusal::NotListed,
        Refusal::BadPointer,
        Refusal::WrongRom,
        Refusal::WrongPicture,
        Refusal::NotBuilt,
        Refusal::LowOrigin,
        Refusal::WrongPhase,
        Refusal::Busy,
        Refusal::NotFitted,
        Refusal::WrongBoard,
        Refusal::UnknownPart,
    ];

    /// The number in the rules: 1 to 12 or 14.
    pub fn number(self) -> u8 {
        self as u8
    }

    /// The refusal of a number; none for 0, which is no refusal, and for a number that there is
    /// not.
    pub fn of_number(number: u8) -> Option<Refusal> {
        let mut all = Refusal::ALL.into_iter();
        all.find(|refusal| refusal.number() == number)
    }

    /// Whether the register access itself has happened all the same.
    pub fn is_after_access(self) -> bool {
        matches!(
            self,
            Refusal::NotListed | Refusal::BadPointer | Refusal::NotFitted
        )
    }

    fn words(self) -> &'static str {
        match self {
            Refusal::WrongMemory => "private memory is not 1,024 bytes for each block of the board",
            Refusal::WrongAddress => "the address's high four bits are not 2",
            Refusal::NotListed => "a command to execute is not listed",
            Refusal::BadPointer => {
                "the command's pointer, or either one of a move, has X above 39 or Y from 1 to 7"
            }
            Refusal::WrongRom => "ROM is not 6,400 bytes, or 3,840 of a TS9347",
            Refusal::WrongPicture => "picture is not 40,000 bytes, or 60,000 in 80 columns",
            Refusal::NotBuilt => {
                "TGS bit 7 or 6 set without the other, or TGS bit 5 or PAT bit 7 set; \
                 of a TS9347, TGS bits 7 and 6 both set too"
            }
            Refusal::LowOrigin => "origin YOR below 8",
            Refusal::WrongPhase => "phase is not 0 or 1",
            Refusal::Busy => {
                "a move runs, and the access is neither a status read at address 20 nor a NOP \
                 written to address 28"
            }
            Refusal::NotFitted => "a byte of the command lies in a block that is not fitted",
            Refusal::WrongBoard => {
                "the number of blocks is not 2, 8 or 16 of an EF9345, or 32 of a TS9347"
            }
            Refusal::UnknownPart => "the part is not 0, an EF9345, or 1, a TS9347",
        }
    }
}

impl fmt::Display for Refusal {
    fn fmt(&self, to: &mut fmt::Formatter) -> fmt::Result {
        write!(to, "refusal {}: {}", self.number(), self.words())
    }
}

impl Error for Refusal {}

/// A refused read. With refusals 3, 4 and 11 the register has been read all the same, and its value is
/// kept here.
///
/// It turns into its [`Refusal`], so that `?` serves where the value is of no use.
#[derive(Clone, Copy, Debug, PartialEq, Eq)]
pub struct RefusedRead {
    refusal: Refusal,
    value: u8,
}

impl RefusedRead {
    pub(crate) fn new(refusal: Refusal, value: u8) -> RefusedRead {
        RefusedRead { refusal, value }
    }

    pub fn refusal(self) -> Refusal {
        self.refusal
    }

    /// The value of the register, if it was read: with refusals 3, 4 and 11.
    pub fn value(self) -> Option<u8> {
        self.refusal.is_after_access().then_some(self.value)
    }
}

impl fmt::Display for RefusedRead {
    fn fmt(&self, to: &mut fmt::Formatter) -> fmt::Result {
        match self.value() {
            Some(value) => write!(to, "{}; the value read is {value:02X} hex", self.refusal),
            None => self.refusal.fmt(to),
        }
    }
}

impl Error for RefusedRead {
    fn source(&self) -> Option<&(dyn Error + 'static)> {
        Some(&self.refusal)
    }
}

impl From<RefusedRead> for Refusal {
    fn from(refused: RefusedRead) -> Refusal {
        refused.refusal
    }
}
