//! The same call made of the proved library and of the oracle, each with what it answers and what it leaves behind.

use oracle::generate::{Call, Loan};
use oracle::{Answer, GateAnswer, Logic, ReadAnswer, Tables, WriteAnswer};
use peraduksi::{Counts, Refusal, Version};

/// What one side answers to a call of the reader, and the tables it leaves.
#[derive(Clone, Debug, PartialEq, Eq)]
pub struct Read {
    pub answer: ReadAnswer,
    pub forms: Vec<u16>,
    pub clauses: Vec<u16>,
    pub steps: Vec<u16>,
}

/// What one side answers to a call of the writer, and the output it leaves.
#[derive(Clone, Debug, PartialEq, Eq)]
pub struct Written {
    pub answer: WriteAnswer,
    pub output: Vec<u8>,
}

/// The library's counts, where all fit 16 bits.
pub fn narrow(counts: &oracle::Counts) -> Option<Counts> {
    let of = |count: usize| u16::try_from(count).ok();
    Some(Counts {
        version: Version(of(counts.version)?),
        logic: match counts.logic {
            Logic::Plain => peraduksi::Logic::Plain,
            Logic::Unit => peraduksi::Logic::Unit,
        },
        principals: of(counts.principals)?,
        atoms: of(counts.atoms)?,
        formulas: of(counts.formulas)?,
        policy: of(counts.lines)?,
        goal: of(counts.goal)?,
        steps: of(counts.steps)?,
    })
}

fn answer_of<T>(result: &Result<T, Refusal>) -> Answer {
    match result {
        Ok(_) => Answer::default(),
        Err(refusal) => Answer { refusal: refusal.number() as u8, place: refusal.place as usize },
    }
}

pub mod ours {
    use super::*;

    pub fn read(loan: &Loan) -> Read {
        let (mut forms, mut clauses, mut steps) = (loan.forms.clone(), loan.clauses.clone(), loan.steps.clone());
        let got = peraduksi::read(&loan.file, &mut forms, &mut clauses, &mut steps);
        let Answer { refusal, place } = answer_of(&got);
        let column = got.err().map_or(0, |refusal| refusal.column.into());
        // After a refusal the wrapper gives no counts.
        let counts = got.unwrap_or_default();
        let answer = ReadAnswer {
            refusal,
            place,
            column,
            version: counts.version.0.into(),
            logic: match counts.logic {
                peraduksi::Logic::Plain => Logic::Plain,
                peraduksi::Logic::Unit => Logic::Unit,
            },
            principals: counts.principals.into(),
            atoms: counts.atoms.into(),
            formulas: counts.formulas.into(),
            lines: counts.policy.into(),
            goal: counts.goal.into(),
            steps: counts.steps.into(),
        };
        Read { answer, forms, clauses, steps }
    }

    pub fn write(call: &Call, counts: Counts) -> Written {
        let mut output = vec![b'x'; call.output];
        let got = peraduksi::write(counts, &call.forms, &call.clauses, &call.steps, &mut output);
        let Answer { refusal, place } = answer_of(&got);
        Written { answer: WriteAnswer { refusal, place, length: got.unwrap_or(0) }, output }
    }

    pub fn judge(call: &Call, counts: Counts) -> Answer {
        answer_of(&peraduksi::judge(counts, &call.forms, &call.clauses, &call.steps))
    }

    pub fn gate(file: &[u8]) -> GateAnswer {
        let printed = peraduksi::gate(file);
        GateAnswer {
            answer: printed.answer as u8,
            place: printed.place as usize,
            steps: printed.steps.into(),
            column: printed.column.into(),
        }
    }
}

pub mod theirs {
    use super::*;

    pub fn read(loan: &Loan) -> Read {
        let (mut forms, mut clauses, mut steps) = (loan.forms.clone(), loan.clauses.clone(), loan.steps.clone());
        let answer = oracle::read(&loan.file, &mut forms, &mut clauses, &mut steps);
        Read { answer, forms, clauses, steps }
    }

    pub fn write(call: &Call) -> Written {
        let mut output = vec![b'x'; call.output];
        let answer = oracle::write(&call.counts, &call.tables(), &mut output);
        Written { answer, output }
    }

    pub fn judge(call: &Call) -> Answer {
        let tables = Tables { forms: &call.forms, clauses: &call.clauses, steps: &call.steps };
        oracle::judge(&call.counts, &tables)
    }

    pub fn gate(file: &[u8]) -> GateAnswer {
        oracle::gate(file)
    }
}
