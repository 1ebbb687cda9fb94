//! Lent tables with their counts, and the kinds of formula and step in the document's numbering.

use crate::answers::ReadAnswer;

/// The logic of a request: a file of version 1 means plain, one of version 2 says which.
#[derive(Clone, Copy, Debug, Default, PartialEq, Eq)]
pub enum Logic {
    #[default]
    Plain,
    /// p implies A says p: u S_A v gives u ≤ v.
    Unit,
}

/// Each logic's word.
pub const LOGICS: [(&str, Logic); 2] = [("plain", Logic::Plain), ("unit", Logic::Unit)];

impl Logic {
    pub fn word(self) -> &'static str {
        match self {
            Logic::Plain => "plain",
            Logic::Unit => "unit",
        }
    }
}

/// Version, logic, counts and goal that go with lent tables.
#[derive(Clone, Copy, Debug, Default, PartialEq, Eq)]
pub struct Counts {
    pub version: usize,
    pub logic: Logic,
    pub principals: usize,
    pub atoms: usize,
    pub formulas: usize,
    pub lines: usize,
    pub goal: usize,
    pub steps: usize,
}

impl From<&ReadAnswer> for Counts {
    fn from(answer: &ReadAnswer) -> Counts {
        Counts {
            version: answer.version,
            logic: answer.logic,
            principals: answer.principals,
            atoms: answer.atoms,
            formulas: answer.formulas,
            lines: answer.lines,
            goal: answer.goal,
            steps: answer.steps,
        }
    }
}

impl Counts {
    /// The line of `principals=`; all that follow are counted from it.
    pub fn first_line(&self) -> usize {
        if self.version == 2 {
            3
        } else {
            2
        }
    }
}

/// The lent tables: 3 entries a formula, 1 a policy line, 2 a step.
#[derive(Clone, Copy, Debug)]
pub struct Tables<'a> {
    pub forms: &'a [u16],
    pub clauses: &'a [u16],
    pub steps: &'a [u16],
}

/// What an operand of a formula numbers.
#[derive(Clone, Copy, Debug, PartialEq, Eq)]
pub enum Operand {
    Nothing,
    Atom,
    Principal,
    Formula,
}

use Operand::{Atom, Formula, Nothing, Principal};

/// Each kind's word and operands, by kind number.
pub const KINDS: [(&str, [Operand; 2]); 8] = [
    ("p", [Atom, Nothing]),
    ("top", [Nothing, Nothing]),
    ("bot", [Nothing, Nothing]),
    ("and", [Formula, Formula]),
    ("or", [Formula, Formula]),
    ("imp", [Formula, Formula]),
    ("says", [Principal, Formula]),
    ("sf", [Principal, Principal]),
];

/// A formula, its parts by number.
#[derive(Clone, Copy, Debug, PartialEq, Eq)]
pub enum Form {
    P(usize),
    Top,
    Bot,
    And(usize, usize),
    Or(usize, usize),
    Imp(usize, usize),
    Says(usize, usize),
    Sf(usize, usize),
}

impl Form {
    /// The formula of an entry whose kind is known to be one of the eight.
    pub fn of(kind: usize, first: usize, second: usize) -> Form {
        match kind {
            0 => Form::P(first),
            1 => Form::Top,
            2 => Form::Bot,
            3 => Form::And(first, second),
            4 => Form::Or(first, second),
            5 => Form::Imp(first, second),
            6 => Form::Says(first, second),
            7 => Form::Sf(first, second),
            _ => unreachable!("kinds are checked before"),
        }
    }

    /// Kind and two operands, as a table has them.
    pub fn entry(self) -> [usize; 3] {
        match self {
            Form::P(atom) => [0, atom, 0],
            Form::Top => [1, 0, 0],
            Form::Bot => [2, 0, 0],
            Form::And(first, second) => [3, first, second],
            Form::Or(first, second) => [4, first, second],
            Form::Imp(first, second) => [5, first, second],
            Form::Says(principal, body) => [6, principal, body],
            Form::Sf(first, second) => [7, first, second],
        }
    }
}

/// A table of formulas that is known to be in order.
#[derive(Clone, Copy, Debug)]
pub struct Forms<'a>(pub &'a [u16]);

impl Forms<'_> {
    pub fn at(&self, number: usize) -> Form {
        let entry = &self.0[3 * number..3 * number + 3];
        Form::of(entry[0].into(), entry[1].into(), entry[2].into())
    }
}

/// A step; `use` carries a clause number and `to` a world number.
#[derive(Clone, Copy, Debug, PartialEq, Eq)]
pub enum Step {
    And,
    Or1,
    Or2,
    Imp,
    Says,
    Top,
    Sf,
    Use(usize),
    Left,
    Right,
    To(usize),
    Hit,
    Push,
    Split,
    Case,
    Absurd,
    Drop,
    Note,
}

/// Each step's word and the step with number 0, by kind number.
pub const STEPS: [(&str, Step); 18] = [
    ("and", Step::And),
    ("or1", Step::Or1),
    ("or2", Step::Or2),
    ("imp", Step::Imp),
    ("says", Step::Says),
    ("top", Step::Top),
    ("sf", Step::Sf),
    ("use", Step::Use(0)),
    ("left", Step::Left),
    ("right", Step::Right),
    ("to", Step::To(0)),
    ("hit", Step::Hit),
    ("push", Step::Push),
    ("split", Step::Split),
    ("case", Step::Case),
    ("absurd", Step::Absurd),
    ("drop", Step::Drop),
    ("note", Step::Note),
];

impl Step {
    /// The step of an entry whose kind is known to be one of the eighteen.
    pub fn of(kind: usize, number: usize) -> Step {
        STEPS[kind].1.with(number)
    }

    /// The same kind with this number; plain kinds have none to change.
    pub fn with(self, number: usize) -> Step {
        match self {
            Step::Use(_) => Step::Use(number),
            Step::To(_) => Step::To(number),
            plain => plain,
        }
    }

    /// The number carried, if this kind carries one.
    pub fn number(self) -> Option<usize> {
        match self {
            Step::Use(number) | Step::To(number) => Some(number),
            _ => None,
        }
    }

    /// Kind and number, as a table has them.
    pub fn entry(self) -> [usize; 2] {
        let kind = STEPS.iter().position(|(_, step)| *step == self.with(0));
        [kind.expect("every step is listed"), self.number().unwrap_or(0)]
    }
}
