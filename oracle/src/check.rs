//! Lent tables held against the text that they stand for: room, then each line in order, then the entries past the
//! counts.

use crate::answers::refusal::{NAMES_LATER, OUT_OF_RANGE, TABLE_TOO_SHORT, UNIT_IN_VERSION_1, WRONG_CLASS};
use crate::answers::{refuse, Refused};
use crate::classes::{class_of, Class};
use crate::limits;
use crate::repeats::Repeats;
use crate::tables::{Counts, Form, Logic, Operand, Tables, KINDS, STEPS};
use std::ops::RangeInclusive;

/// Refusal 13, which comes before any look at counts or entries.
pub fn check_room(forms: usize, clauses: usize, steps: usize) -> Result<(), Refused> {
    let room = forms >= limits::FORMS_ROOM && clauses >= limits::CLAUSES_ROOM && steps >= limits::STEPS_ROOM;
    if room {
        Ok(())
    } else {
        refuse(TABLE_TOO_SHORT, 0)
    }
}

/// Every refusal that writer and judge share, in their order.
pub fn check_tables(counts: &Counts, tables: &Tables) -> Result<(), Refused> {
    check_room(tables.forms.len(), tables.clauses.len(), tables.steps.len())?;
    if (counts.version, counts.logic) == (1, Logic::Unit) {
        return refuse(UNIT_IN_VERSION_1, 0);
    }
    check_lines(counts, tables)?;
    check_tails(counts, tables)
}

fn check_lines(counts: &Counts, tables: &Tables) -> Result<(), Refused> {
    check_count(counts.version, 1..=2, 1)?;
    let first = counts.first_line();
    check_count(counts.principals, 1..=limits::PRINCIPALS, first)?;
    check_count(counts.atoms, 1..=limits::ATOMS, first + 1)?;
    check_count(counts.formulas, 1..=limits::FORMULAS, first + 2)?;
    let classes = check_forms(counts, tables.forms)?;
    let clauses_line = first + 3 + counts.formulas;
    check_count(counts.lines, 0..=limits::LINES, clauses_line)?;
    for (index, &clause) in tables.clauses[..counts.lines].iter().enumerate() {
        check_clause(clause.into(), &classes).or_else(|refusal| refuse(refusal, clauses_line + 1 + index))?;
    }
    let goal_line = clauses_line + counts.lines + 1;
    check_goal(counts.goal, &classes).or_else(|refusal| refuse(refusal, goal_line))?;
    check_count(counts.steps, 1..=limits::STEPS, goal_line + 1)?;
    for (index, step) in tables.steps.chunks_exact(2).take(counts.steps).enumerate() {
        check_step(step[0].into(), step[1].into()).or_else(|refusal| refuse(refusal, goal_line + 2 + index))?;
    }
    Ok(())
}

fn check_count(count: usize, allowed: RangeInclusive<usize>, line: usize) -> Result<(), Refused> {
    if allowed.contains(&count) {
        Ok(())
    } else {
        refuse(OUT_OF_RANGE, line)
    }
}

fn check_forms(counts: &Counts, forms: &[u16]) -> Result<Vec<Class>, Refused> {
    let mut classes = Vec::with_capacity(counts.formulas);
    let mut repeats = Repeats::with_room(counts.formulas);
    for (number, entry) in forms.chunks_exact(3).take(counts.formulas).enumerate() {
        let (kind, operands) = (entry[0].into(), [entry[1].into(), entry[2].into()]);
        check_form(number, kind, operands, counts.principals, counts.atoms)
            .and_then(|()| repeats.check([entry[0], entry[1], entry[2]]))
            .or_else(|refusal| refuse(refusal, counts.first_line() + 3 + number))?;
        classes.push(class_of(Form::of(kind, operands[0], operands[1]), &classes));
    }
    Ok(classes)
}

/// Refusal 3, else 4, of formula `number`; a text's operands come here too, so they may be as large as five digits.
pub fn check_form(number: usize, kind: usize, operands: [usize; 2], principals: usize, atoms: usize) -> Result<(), u8> {
    let Some((_, wanted)) = KINDS.get(kind) else {
        return Err(OUT_OF_RANGE);
    };
    let in_range = |(operand, wanted): (&usize, &Operand)| match wanted {
        Operand::Nothing => *operand == 0,
        Operand::Atom => *operand < atoms,
        Operand::Principal => *operand < principals,
        Operand::Formula => true,
    };
    if !operands.iter().zip(wanted).all(in_range) {
        return Err(OUT_OF_RANGE);
    }
    let earlier = |(operand, wanted): (&usize, &Operand)| *wanted != Operand::Formula || *operand < number;
    if !operands.iter().zip(wanted).all(earlier) {
        return Err(NAMES_LATER);
    }
    Ok(())
}

/// Refusal 3, else 5, of a policy line.
pub fn check_clause(clause: usize, classes: &[Class]) -> Result<(), u8> {
    match classes.get(clause) {
        None => Err(OUT_OF_RANGE),
        Some(class) if !class.policy_line => Err(WRONG_CLASS),
        Some(_) => Ok(()),
    }
}

/// Refusal 3, else 5, of the goal.
pub fn check_goal(goal: usize, classes: &[Class]) -> Result<(), u8> {
    match classes.get(goal) {
        None => Err(OUT_OF_RANGE),
        Some(class) if !class.goal => Err(WRONG_CLASS),
        Some(_) => Ok(()),
    }
}

/// A number on a step that carries none could not be written, so it is refused like an unknown kind.
fn check_step(kind: usize, number: usize) -> Result<(), u8> {
    match STEPS.get(kind) {
        None => Err(OUT_OF_RANGE),
        Some((_, step)) if step.number().is_none() && number != 0 => Err(OUT_OF_RANGE),
        Some(_) => Ok(()),
    }
}

fn check_tails(counts: &Counts, tables: &Tables) -> Result<(), Refused> {
    let tails =
        [&tables.forms[3 * counts.formulas..], &tables.clauses[counts.lines..], &tables.steps[2 * counts.steps..]];
    if tails.iter().all(|tail| tail.iter().all(|&entry| entry == 0)) {
        Ok(())
    } else {
        refuse(OUT_OF_RANGE, 0)
    }
}
