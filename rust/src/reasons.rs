//! The refusal numbers by name.

use std::error::Error;
use std::fmt;

/// Why a call is refused; the value is the refusal's number.
#[repr(u16)]
#[derive(Clone, Copy, Debug, PartialEq, Eq)]
pub enum Reason {
    FileTooLong = 1,
    OutOfShape = 2,
    OutOfRange = 3,
    NamesLater = 4,
    WrongClass = 5,
    BytesAfter = 6,
    DoesNotFit = 7,
    NoSuchNumber = 8,
    FactAbsent = 9,
    PastLimit = 10,
    AllClosed = 11,
    StillOpen = 12,
    TableTooShort = 13,
    OutputTooShort = 14,
    Repeated = 15,
    UnitInVersion1 = 16,
}

use Reason::*;

/// Each reason with what it says, by number from 1.
const REASONS: [(Reason, &str); 16] = [
    (FileTooLong, "file over 65,536 bytes"),
    (OutOfShape, "line missing, out of shape, or without LF"),
    (OutOfRange, "number outside its range"),
    (NamesLater, "formula names itself or a later one"),
    (WrongClass, "policy line or goal of the wrong class"),
    (BytesAfter, "bytes after the last step"),
    (DoesNotFit, "step does not fit the obligation"),
    (NoSuchNumber, "no such world, or the number is no clause"),
    (FactAbsent, "needed fact absent, or another atom"),
    (PastLimit, "step fits but would pass a limit"),
    (AllClosed, "step after everything is closed"),
    (StillOpen, "steps end with something open"),
    (TableTooShort, "lent table too short"),
    (OutputTooShort, "output too short"),
    (Repeated, "formula that stands on an earlier line already"),
    (UnitInVersion1, "unit law told with version 1"),
];

/// A refusal: why, and the line or the step, from 1, or 0 where there is none to name.
#[derive(Clone, Copy, Debug, PartialEq, Eq)]
pub struct Refusal {
    pub reason: Reason,
    pub place: u32,
    /// Where a line is out of shape: the first byte, from 1, at which it can no longer be in shape; else 0.
    pub column: u16,
}

impl Refusal {
    /// The refusal's number.
    pub fn number(self) -> u16 {
        self.reason as u16
    }
}

impl fmt::Display for Refusal {
    fn fmt(&self, f: &mut fmt::Formatter) -> fmt::Result {
        let (_, says) = REASONS[usize::from(self.number()) - 1];
        write!(f, "refused with {} at {}", self.number(), self.place)?;
        if self.column > 0 {
            write!(f, ", column {}", self.column)?;
        }
        write!(f, ": {says}")
    }
}

impl Error for Refusal {}

/// What a call gives where nothing is refused, or its refusal.
pub fn answered<T>(number: u16, place: u32, column: u16, value: T) -> Result<T, Refusal> {
    if number == 0 {
        return Ok(value);
    }
    // The library is proved to answer no number but these.
    let (reason, _) = REASONS[usize::from(number) - 1];
    Err(Refusal { reason, place, column })
}

#[cfg(test)]
mod tests {
    use super::{answered, Refusal, REASONS};

    #[test]
    fn each_number_has_its_own_reason() {
        for number in 1..=16 {
            let refusal: Refusal = answered(number, 5, 3, ()).unwrap_err();
            assert_eq!((refusal.number(), refusal.place, refusal.column), (number, 5, 3));
        }
        assert_eq!(answered(0, 0, 0, 7), Ok(7));
        assert_eq!(REASONS.len(), 16);
    }
}
