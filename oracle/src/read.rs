//! The reader: one request file into lent tables, line by line.

use crate::answers::refusal::{BYTES_AFTER, FILE_TOO_LONG, OUT_OF_RANGE, OUT_OF_SHAPE};
use crate::answers::{refuse, ReadAnswer, Refused};
use crate::check::{check_clause, check_form, check_goal, check_room};
use crate::classes::{class_of, Class};
use crate::limits;
use crate::repeats::Repeats;
use crate::shapes::{number_at, Line};
use crate::tables::{Form, Logic, Operand, KINDS, LOGICS, STEPS};
use std::ops::RangeInclusive;

/// Reads a request; every refusal leaves each table zero over its whole lent length.
pub fn read(file: &[u8], forms: &mut [u16], clauses: &mut [u16], steps: &mut [u16]) -> ReadAnswer {
    // What was lent may hold anything.
    forms.fill(0);
    clauses.fill(0);
    steps.fill(0);
    let mut lines = Lines { rest: file, line: 0, last: Line::Number("version"), from: file };
    read_request(&mut lines, forms, clauses, steps).unwrap_or_else(|refused| {
        forms.fill(0);
        clauses.fill(0);
        steps.fill(0);
        let column = if refused.refusal == OUT_OF_SHAPE { lines.last.column(lines.from) } else { 0 };
        ReadAnswer { refusal: refused.refusal, place: refused.place, column, ..ReadAnswer::default() }
    })
}

fn read_request(
    lines: &mut Lines,
    forms: &mut [u16],
    clauses: &mut [u16],
    steps: &mut [u16],
) -> Result<ReadAnswer, Refused> {
    check_room(forms.len(), clauses.len(), steps.len())?;
    if lines.rest.len() > limits::FILE {
        return refuse(FILE_TOO_LONG, 0);
    }
    let mut answer = ReadAnswer::default();
    answer.version = lines.count_of("version", 1..=2)?;
    if answer.version == 2 {
        answer.logic = read_logic(lines)?;
    }
    answer.principals = lines.count_of("principals", 1..=limits::PRINCIPALS)?;
    answer.atoms = lines.count_of("atoms", 1..=limits::ATOMS)?;
    answer.formulas = lines.count_of("formulas", 1..=limits::FORMULAS)?;
    let classes = read_forms(lines, &answer, forms)?;
    answer.lines = lines.count_of("clauses", 0..=limits::LINES)?;
    for clause in &mut clauses[..answer.lines] {
        let number = lines.number_of("clause")?;
        check_clause(number, &classes).or_else(|refusal| lines.refuse(refusal))?;
        *clause = number as u16;
    }
    answer.goal = lines.number_of("goal")?;
    check_goal(answer.goal, &classes).or_else(|refusal| lines.refuse(refusal))?;
    answer.steps = lines.count_of("steps", 1..=limits::STEPS)?;
    for entry in steps.chunks_exact_mut(2).take(answer.steps) {
        read_step(lines, entry)?;
    }
    if !lines.rest.is_empty() {
        return refuse(BYTES_AFTER, lines.line + 1);
    }
    Ok(answer)
}

fn read_logic(lines: &mut Lines) -> Result<Logic, Refused> {
    let value = lines.value_of(Line::Logic)?;
    match LOGICS.iter().find(|(word, _)| word.as_bytes() == value) {
        Some((_, logic)) => Ok(*logic),
        None => lines.refuse(OUT_OF_SHAPE),
    }
}

fn read_forms(lines: &mut Lines, answer: &ReadAnswer, forms: &mut [u16]) -> Result<Vec<Class>, Refused> {
    let mut classes = Vec::with_capacity(answer.formulas);
    let mut repeats = Repeats::with_room(answer.formulas);
    for (number, entry) in forms.chunks_exact_mut(3).take(answer.formulas).enumerate() {
        let value = lines.value_of(Line::Form)?;
        let Some((kind, operands)) = form_in(value) else {
            return lines.refuse(OUT_OF_SHAPE);
        };
        check_form(number, kind, operands, answer.principals, answer.atoms).or_else(|refusal| lines.refuse(refusal))?;
        let row = [kind as u16, operands[0] as u16, operands[1] as u16];
        repeats.check(row).or_else(|refusal| lines.refuse(refusal))?;
        entry.copy_from_slice(&row);
        classes.push(class_of(Form::of(kind, operands[0], operands[1]), &classes));
    }
    Ok(classes)
}

fn read_step(lines: &mut Lines, entry: &mut [u16]) -> Result<(), Refused> {
    let value = lines.value_of(Line::Step)?;
    let Some((kind, number)) = step_in(value) else {
        return lines.refuse(OUT_OF_SHAPE);
    };
    if number > limits::STEP_NUMBER {
        return lines.refuse(OUT_OF_RANGE);
    }
    entry.copy_from_slice(&[kind as u16, number as u16]);
    Ok(())
}

/// The rest of the file, the number of the line last taken from it, what stands there, and the file from there on.
struct Lines<'a> {
    rest: &'a [u8],
    line: usize,
    last: Line,
    from: &'a [u8],
}

impl<'a> Lines<'a> {
    /// A refusal at the line last taken.
    fn refuse<T>(&self, refusal: u8) -> Result<T, Refused> {
        refuse(refusal, self.line)
    }

    /// Takes the next line and hands back what stands after its equals sign.
    fn value_of(&mut self, wanted: Line) -> Result<&'a [u8], Refused> {
        self.line += 1;
        self.last = wanted;
        self.from = self.rest;
        let Some(end) = self.rest.iter().position(|&byte| byte == b'\n') else {
            return self.refuse(OUT_OF_SHAPE);
        };
        let (line, rest) = (&self.rest[..end], &self.rest[end + 1..]);
        self.rest = rest;
        match line.strip_prefix(wanted.key().as_bytes()).and_then(|after| after.strip_prefix(b"=")) {
            Some(value) => Ok(value),
            None => self.refuse(OUT_OF_SHAPE),
        }
    }

    fn number_of(&mut self, key: &'static str) -> Result<usize, Refused> {
        let value = self.value_of(Line::Number(key))?;
        match number_in(value) {
            Some(number) => Ok(number),
            None => self.refuse(OUT_OF_SHAPE),
        }
    }

    fn count_of(&mut self, key: &'static str, allowed: RangeInclusive<usize>) -> Result<usize, Refused> {
        let count = self.number_of(key)?;
        if allowed.contains(&count) {
            Ok(count)
        } else {
            self.refuse(OUT_OF_RANGE)
        }
    }
}

/// The number that an item is.
fn number_in(item: &[u8]) -> Option<usize> {
    let number = number_at(item);
    (number.length > 0 && number.length == item.len()).then_some(number.value)
}

/// Kind and operands of a `form=` value in shape; operands that the kind lacks are 0.
fn form_in(value: &[u8]) -> Option<(usize, [usize; 2])> {
    let mut items = value.split(|&byte| byte == b' ');
    let word = items.next()?;
    let kind = KINDS.iter().position(|(name, _)| name.as_bytes() == word)?;
    let mut operands = [0; 2];
    for (operand, wanted) in operands.iter_mut().zip(KINDS[kind].1) {
        if wanted != Operand::Nothing {
            *operand = number_in(items.next()?)?;
        }
    }
    items.next().is_none().then_some((kind, operands))
}

/// Kind and number of a `step=` value in shape; a plain step's number is 0.
fn step_in(value: &[u8]) -> Option<(usize, usize)> {
    let mut items = value.split(|&byte| byte == b' ');
    let word = items.next()?;
    let kind = STEPS.iter().position(|(name, _)| name.as_bytes() == word)?;
    let number = match STEPS[kind].1.number() {
        Some(_) => number_in(items.next()?)?,
        None => 0,
    };
    items.next().is_none().then_some((kind, number))
}
