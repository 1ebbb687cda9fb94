//! The gate: a request file read and judged.

use crate::answers::{refusal, GateAnswer};
use crate::facts::Way;
use crate::judge::judge_by;
use crate::limits;
use crate::read::read;
use crate::tables::{Counts, Tables};

/// What the gate program prints for a file.
pub fn gate(file: &[u8]) -> GateAnswer {
    gate_by(Way::Kept, file)
}

/// The same with the closed facts had this way.
pub fn gate_by(way: Way, file: &[u8]) -> GateAnswer {
    let mut forms = [0; limits::FORMS_ROOM];
    let mut clauses = [0; limits::CLAUSES_ROOM];
    let mut steps = [0; limits::STEPS_ROOM];
    let answer = read(file, &mut forms, &mut clauses, &mut steps);
    if answer.refusal != refusal::NONE {
        return GateAnswer { answer: answer.refusal, place: answer.place, steps: 0, column: answer.column };
    }
    let tables = Tables { forms: &forms, clauses: &clauses, steps: &steps };
    let judged = judge_by(way, &Counts::from(&answer), &tables);
    GateAnswer { answer: judged.refusal, place: judged.place, steps: answer.steps, column: 0 }
}
