//! What comes back: refusal numbers and the answers that carry them.

use crate::tables::Logic;

/// The refusal numbers, named after when they are met.
pub mod refusal {
    pub const NONE: u8 = 0;
    pub const FILE_TOO_LONG: u8 = 1;
    pub const OUT_OF_SHAPE: u8 = 2;
    pub const OUT_OF_RANGE: u8 = 3;
    pub const NAMES_LATER: u8 = 4;
    pub const WRONG_CLASS: u8 = 5;
    pub const BYTES_AFTER: u8 = 6;
    pub const DOES_NOT_FIT: u8 = 7;
    pub const NO_SUCH_NUMBER: u8 = 8;
    pub const FACT_ABSENT: u8 = 9;
    pub const PAST_LIMIT: u8 = 10;
    pub const ALL_CLOSED: u8 = 11;
    pub const STILL_OPEN: u8 = 12;
    pub const TABLE_TOO_SHORT: u8 = 13;
    pub const OUTPUT_TOO_SHORT: u8 = 14;
    pub const REPEATED: u8 = 15;
    pub const UNIT_IN_VERSION_1: u8 = 16;
}

/// A refusal number and its place; all zero where nothing is refused.
#[derive(Clone, Copy, Debug, Default, PartialEq, Eq)]
pub struct Answer {
    pub refusal: u8,
    pub place: usize,
}

/// The first refusal met; the `Err` of everything that can refuse.
pub type Refused = Answer;

/// A refusal at its place, ready to be returned.
pub fn refuse<T>(refusal: u8, place: usize) -> Result<T, Refused> {
    Err(Answer { refusal, place })
}

/// Whether the number is one of the reader's for a file, so that no steps are read.
pub fn is_unread(refusal: u8) -> bool {
    matches!(refusal, refusal::FILE_TOO_LONG..=refusal::BYTES_AFTER | refusal::REPEATED)
}

/// The reader's answer; version, logic, counts and goal are 0 after a refusal, the logic's 0 being plain.
#[derive(Clone, Copy, Debug, Default, PartialEq, Eq)]
pub struct ReadAnswer {
    pub refusal: u8,
    pub place: usize,
    /// For refusal 2 the column of the line, from 1; else 0.
    pub column: usize,
    pub version: usize,
    pub logic: Logic,
    pub principals: usize,
    pub atoms: usize,
    pub formulas: usize,
    pub lines: usize,
    pub goal: usize,
    pub steps: usize,
}

/// The writer's answer; the length is 0 after a refusal.
#[derive(Clone, Copy, Debug, Default, PartialEq, Eq)]
pub struct WriteAnswer {
    pub refusal: u8,
    pub place: usize,
    pub length: usize,
}

/// What the gate program prints; the steps are 0 if reading is refused.
#[derive(Clone, Copy, Debug, Default, PartialEq, Eq)]
pub struct GateAnswer {
    pub answer: u8,
    pub place: usize,
    pub steps: usize,
    /// For refusal 2 the column of the line, from 1; else 0.
    pub column: usize,
}
