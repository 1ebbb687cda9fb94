//! What document 01 allows, in its own table's order; the worlds as in request f) of document 02.

pub const FILE: usize = 65_536;
pub const PRINCIPALS: usize = 16;
pub const ATOMS: usize = 256;
pub const FORMULAS: usize = 1_024;
pub const LINES: usize = 128;
pub const STEPS: usize = 2_048;
pub const WORLDS: usize = 64;
pub const CLAUSES: usize = 256;
pub const OPEN: usize = 256;
pub const CHUNKS: usize = 16;

/// The largest number that `use` and `to` take.
pub const STEP_NUMBER: usize = 65_535;

/// Entries that each lent table has room for at least.
pub const FORMS_ROOM: usize = 3 * FORMULAS;
pub const CLAUSES_ROOM: usize = LINES;
pub const STEPS_ROOM: usize = 2 * STEPS;
