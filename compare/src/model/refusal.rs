//! The refusal numbers of documents 01 and 02 by name, and where an octet is at fault.

use crate::NOWHERE;

#[derive(Clone, Copy, Debug, PartialEq, Eq)]
#[repr(u8)]
pub enum Refusal {
    Unsound = 1,
    ShortStore = 2,
    ShortReport = 3,
    LongParameter = 4,
    Cut = 5,
    Extension = 6,
    Octet3a = 7,
    Unregistered = 8,
    LongAddress = 9,
    Full = 10,
    Registry = 11,
    Timer = 12,
    ClockStep = 13,
    LongData = 14,
    AddressOf1998 = 15,
    Reference = 16,
    Instruction = 17,
    Room = 18,
    Number = 19,
    ShortArea = 20,
    NoRow = 21,
    LargeTotal = 22,
    PaddedContext = 23,
}

impl Refusal {
    pub fn number(self) -> u8 {
        self as u8
    }

    /// `Ok` if the condition holds, else this refusal: made for `?`.
    pub fn unless(self, holds: bool) -> Result<(), Refusal> {
        holds.then_some(()).ok_or(self)
    }

    /// The same by an octet, counted from 0.
    pub fn at(self, position: usize) -> Refused {
        Refused { refusal: self, position: position as u16 }
    }
}

/// A refusal of a segment. Those that reading finds, 5 to 9 and 23, are at an octet.
#[derive(Clone, Copy, Debug, PartialEq, Eq)]
pub struct Refused {
    pub refusal: Refusal,
    /// A parameter that is read has at most 255 octets; no octet is `NOWHERE`.
    pub position: u16,
}

impl From<Refusal> for Refused {
    fn from(refusal: Refusal) -> Refused {
        Refused { refusal, position: NOWHERE }
    }
}

impl Refused {
    /// As a refusal's.
    pub fn unless(self, holds: bool) -> Result<(), Refused> {
        holds.then_some(()).ok_or(self)
    }
}
