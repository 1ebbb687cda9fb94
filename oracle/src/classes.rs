//! Which formulas may stand where. A class needs only those of earlier formulas, so a shared table costs one pass.

use crate::tables::Form;

/// The places at which a formula may stand.
#[derive(Clone, Copy, Debug, Default, PartialEq, Eq)]
pub struct Class {
    pub goal: bool,
    pub clause: bool,
    pub chunk: bool,
    /// An `sf` is no clause, but may be a policy line.
    pub policy_line: bool,
}

/// The class of a formula, given those of all earlier ones.
pub fn class_of(form: Form, earlier: &[Class]) -> Class {
    let goal = match form {
        Form::P(_) | Form::Top | Form::Bot | Form::Sf(..) => true,
        Form::And(first, second) | Form::Or(first, second) => earlier[first].goal && earlier[second].goal,
        Form::Imp(left, right) => earlier[left].chunk && earlier[right].goal,
        Form::Says(_, body) => earlier[body].goal,
    };
    let clause = match form {
        Form::P(_) | Form::Top => true,
        Form::Bot | Form::Or(..) | Form::Sf(..) => false,
        Form::And(first, second) => earlier[first].clause && earlier[second].clause,
        Form::Imp(left, right) => earlier[left].goal && earlier[right].clause,
        Form::Says(_, body) => earlier[body].clause,
    };
    let chunk = clause
        || match form {
            Form::Bot | Form::Sf(..) => true,
            Form::And(first, second) | Form::Or(first, second) => earlier[first].chunk && earlier[second].chunk,
            _ => false,
        };
    let policy_line = clause || matches!(form, Form::Sf(..));
    Class { goal, clause, chunk, policy_line }
}
