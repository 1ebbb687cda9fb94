//! What is told with lent tables: version, logic, counts and goal.

/// The version of the request file. A number that is neither of the two is refusal 3 at line 1.
#[repr(transparent)]
#[derive(Clone, Copy, Debug, Default, PartialEq, Eq)]
pub struct Version(pub u16);

impl Version {
    /// Has no line for the logic, and means plain.
    pub const ONE: Version = Version(1);
    /// Says its logic on its second line; every later line is one further down.
    pub const TWO: Version = Version(2);
}

/// The logic by which a request is judged. The library is proved to give one of these two.
#[repr(u16)]
#[derive(Clone, Copy, Debug, Default, PartialEq, Eq)]
pub enum Logic {
    #[default]
    Plain = 0,
    /// With the unit law, by which p implies A says p. Only version 2 has it.
    Unit = 1,
}

/// The version, the logic, the counts and the goal that go with lent tables.
#[repr(C)]
#[derive(Clone, Copy, Debug, Default, PartialEq, Eq)]
pub struct Counts {
    pub version: Version,
    pub logic: Logic,
    pub principals: u16,
    pub atoms: u16,
    pub formulas: u16,
    pub policy: u16,
    pub goal: u16,
    pub steps: u16,
}
