//! The writer: tables and counts into the one text that reads back as them.

use crate::answers::refusal::{NONE, OUTPUT_TOO_SHORT};
use crate::answers::{refuse, Refused, WriteAnswer};
use crate::check::check_tables;
use crate::tables::{Counts, Operand, Tables, KINDS, STEPS};

/// Writes a request; the text is followed by zeros, and a refusal leaves the whole output zero.
pub fn write(counts: &Counts, tables: &Tables, out: &mut [u8]) -> WriteAnswer {
    out.fill(0);
    match text_for(counts, tables, out.len()) {
        Ok(text) => {
            out[..text.len()].copy_from_slice(&text);
            WriteAnswer { refusal: NONE, place: 0, length: text.len() }
        }
        Err(refused) => WriteAnswer { refusal: refused.refusal, place: refused.place, length: 0 },
    }
}

fn text_for(counts: &Counts, tables: &Tables, room: usize) -> Result<Vec<u8>, Refused> {
    check_tables(counts, tables)?;
    let text = text_of(counts, tables);
    if text.len() > room {
        return refuse(OUTPUT_TOO_SHORT, 0);
    }
    Ok(text)
}

/// The text of tables that are known to be in order.
fn text_of(counts: &Counts, tables: &Tables) -> Vec<u8> {
    let mut text = Vec::new();
    put_number(&mut text, "version", counts.version);
    if counts.version == 2 {
        put_items(&mut text, "logic", counts.logic.word(), std::iter::empty());
    }
    put_number(&mut text, "principals", counts.principals);
    put_number(&mut text, "atoms", counts.atoms);
    put_number(&mut text, "formulas", counts.formulas);
    for form in tables.forms.chunks_exact(3).take(counts.formulas) {
        let (word, wanted) = KINDS[usize::from(form[0])];
        let operands = form[1..].iter().zip(wanted).filter(|(_, wanted)| *wanted != Operand::Nothing);
        put_items(&mut text, "form", word, operands.map(|(operand, _)| usize::from(*operand)));
    }
    put_number(&mut text, "clauses", counts.lines);
    for &clause in &tables.clauses[..counts.lines] {
        put_number(&mut text, "clause", clause.into());
    }
    put_number(&mut text, "goal", counts.goal);
    put_number(&mut text, "steps", counts.steps);
    for step in tables.steps.chunks_exact(2).take(counts.steps) {
        let (word, kind) = STEPS[usize::from(step[0])];
        let number = kind.number().map(|_| usize::from(step[1]));
        put_items(&mut text, "step", word, number.into_iter());
    }
    text
}

fn put_number(text: &mut Vec<u8>, key: &str, number: usize) {
    text.extend_from_slice(key.as_bytes());
    text.push(b'=');
    put_digits(text, number);
    text.push(b'\n');
}

fn put_items(text: &mut Vec<u8>, key: &str, word: &str, numbers: impl Iterator<Item = usize>) {
    text.extend_from_slice(key.as_bytes());
    text.push(b'=');
    text.extend_from_slice(word.as_bytes());
    for number in numbers {
        text.push(b' ');
        put_digits(text, number);
    }
    text.push(b'\n');
}

fn put_digits(text: &mut Vec<u8>, number: usize) {
    if number >= 10 {
        put_digits(text, number / 10);
    }
    text.push(b'0' + (number % 10) as u8);
}
