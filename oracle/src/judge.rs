//! The judge: the writer's refusals without 14, then the steps in order, then whether anything is left open.

use crate::answers::refusal::STILL_OPEN;
use crate::answers::{refuse, Answer, Refused};
use crate::check::check_tables;
use crate::facts::{Afresh, Facts, Kept, Way};
use crate::tables::{Counts, Forms, Step, Tables};
use crate::walk::Walk;

/// Judges a request in tables.
pub fn judge(counts: &Counts, tables: &Tables) -> Answer {
    judge_by(Way::Kept, counts, tables)
}

/// Judges with the closed facts had this way.
pub fn judge_by(way: Way, counts: &Counts, tables: &Tables) -> Answer {
    match way {
        Way::Afresh => judge_with::<Afresh>(counts, tables),
        Way::Kept => judge_with::<Kept>(counts, tables),
    }
}

/// Judges with any facts at all.
pub fn judge_with<F: Facts>(counts: &Counts, tables: &Tables) -> Answer {
    let judged = check_tables(counts, tables).and_then(|()| judge_steps::<F>(counts, tables));
    judged.err().unwrap_or_default()
}

fn judge_steps<F: Facts>(counts: &Counts, tables: &Tables) -> Result<(), Refused> {
    let policy = &tables.clauses[..counts.lines];
    let mut walk = Walk::new(Forms(tables.forms), policy, counts.goal, F::root(counts.logic, counts.principals));
    for (index, step) in tables.steps.chunks_exact(2).take(counts.steps).enumerate() {
        let step = Step::of(step[0].into(), step[1].into());
        walk.take(step).or_else(|refusal| refuse(refusal, index + 1))?;
    }
    if walk.current().is_some() {
        return refuse(STILL_OPEN, counts.steps + 1);
    }
    Ok(())
}
