//! Calls on lent tables: for writer and judge, and for the reader.

use super::derive::{derived, misled};
use super::prng::Prng;
use super::random::{add_chunk, add_clause, add_goal};
use super::request::Request;
use super::texts;
use super::walks::walked;
use crate::limits;
use crate::tables::{Counts, Logic, Tables, KINDS, STEPS};

/// What a writer or judge is called with; the judge has no use for the output's length.
#[derive(Clone, Debug, PartialEq, Eq)]
pub struct Call {
    pub name: String,
    pub counts: Counts,
    pub forms: Vec<u16>,
    pub clauses: Vec<u16>,
    pub steps: Vec<u16>,
    pub output: usize,
}

impl Call {
    pub fn tables(&self) -> Tables<'_> {
        Tables { forms: &self.forms, clauses: &self.clauses, steps: &self.steps }
    }
}

/// What a reader is called with; the tables hold anything at first.
#[derive(Clone, Debug, PartialEq, Eq)]
pub struct Loan {
    pub name: String,
    pub file: Vec<u8>,
    pub forms: Vec<u16>,
    pub clauses: Vec<u16>,
    pub steps: Vec<u16>,
}

/// Calls of writer and judge: a third in order, the others with one to three faults.
pub fn tables(seed: u64, count: usize) -> impl Iterator<Item = Call> {
    (0..count).map(move |index| {
        let prng = &mut Prng::new(seed, index as u64 ^ 1 << 40);
        let mut call = call_of(&any_request(prng));
        call.name = format!("t{index:06}");
        lengthen(prng, &mut call);
        if !prng.once_in(3) {
            for _ in 0..prng.between(1, 3) {
                put_fault(prng, &mut call);
            }
        }
        call
    })
}

/// Calls of the reader over `texts`, some tables too short, some longer than needed.
pub fn loans(seed: u64, count: usize) -> impl Iterator<Item = Loan> {
    texts(seed, count).enumerate().map(move |(index, text)| {
        let prng = &mut Prng::new(seed, index as u64 ^ 2 << 40);
        let mut table = |room: usize| -> Vec<u16> {
            let length = match prng.below(16) {
                0 => room - 1,
                1 => prng.below(room),
                2 | 3 => room + prng.between(1, 70),
                _ => room,
            };
            let fill = prng.pick(&[0, 1, u16::MAX]);
            vec![fill; length]
        };
        let (forms, clauses) = (table(limits::FORMS_ROOM), table(limits::CLAUSES_ROOM));
        Loan { name: text.name, file: text.bytes, forms, clauses, steps: table(limits::STEPS_ROOM) }
    })
}

fn any_request(prng: &mut Prng) -> Request {
    let mut request = match prng.below(4) {
        0 => walked(prng),
        1 => misled(prng),
        _ => derived(prng),
    };
    // Formulas that nothing names, some of no class.
    for _ in 0..prng.below(3) {
        add_chunk(prng, &mut request, 2);
        add_clause(prng, &mut request, 1);
        add_goal(prng, &mut request, 1);
    }
    request
}

fn call_of(request: &Request) -> Call {
    let (forms, clauses, steps) = request.tables();
    let output = request.text().len();
    Call { name: String::new(), counts: request.counts(), forms, clauses, steps, output }
}

/// Tables and output may be longer than needed.
fn lengthen(prng: &mut Prng, call: &mut Call) {
    for table in [&mut call.forms, &mut call.clauses, &mut call.steps] {
        if prng.once_in(4) {
            table.resize(table.len() + prng.between(1, 40), 0);
        }
    }
    call.output += prng.pick(&[0, 0, 0, 1, 100, 70_000]);
}

fn put_fault(prng: &mut Prng, call: &mut Call) {
    match prng.below(14) {
        0 => shorten_table(prng, call),
        12 => repeat_form(prng, call),
        13 => change_logic(prng, call),
        1 | 2 => fault_in_form(prng, call),
        3 => fault_in_clause(prng, call),
        4 => call.counts.goal = off_number(prng, call.counts.formulas),
        5 | 6 => fault_in_step(prng, call),
        7 | 8 => mark_tail(prng, call),
        9 => fault_in_count(prng, call),
        10 => nudge_count(prng, call),
        _ => call.output = prng.pick(&[0, 1, call.output.saturating_sub(1), call.output / 2]),
    }
}

fn shorten_table(prng: &mut Prng, call: &mut Call) {
    let (table, room) = match prng.below(3) {
        0 => (&mut call.forms, limits::FORMS_ROOM),
        1 => (&mut call.clauses, limits::CLAUSES_ROOM),
        _ => (&mut call.steps, limits::STEPS_ROOM),
    };
    let length = prng.pick(&[0, 1, room / 2, room - 1, room - 1]);
    table.truncate(length);
}

/// A number that may be just out of range, far out, or anything.
fn off_number(prng: &mut Prng, end: usize) -> usize {
    let any = prng.below(65_536);
    prng.pick(&[end, end.saturating_add(1), 65_535, any, 0]).min(65_535)
}

fn fault_in_form(prng: &mut Prng, call: &mut Call) {
    let number = prng.below(call.counts.formulas.clamp(1, limits::FORMULAS));
    let Some(entry) = call.forms.get_mut(3 * number..3 * number + 3) else {
        return;
    };
    match prng.below(3) {
        0 => entry[0] = prng.pick(&[8, 9, 255, 256, u16::MAX]),
        1 => entry[0] = prng.below(KINDS.len()) as u16,
        _ => entry[prng.between(1, 2)] = prng.pick(&[1, 2, 16, 256, number as u16, number as u16 + 1, u16::MAX]),
    }
}

/// Another version, in range or out of it, or the other logic.
fn change_logic(prng: &mut Prng, call: &mut Call) {
    match prng.below(3) {
        0 => call.counts.version = prng.pick(&[1, 2]),
        1 => call.counts.version = prng.pick(&[0, 3, 65_535, 65_537, 65_538, usize::MAX]),
        _ => {
            call.counts.logic = match call.counts.logic {
                Logic::Plain => Logic::Unit,
                Logic::Unit => Logic::Plain,
            }
        }
    }
}

/// A formula's entry once more: over a later one, or just past the last.
fn repeat_form(prng: &mut Prng, call: &mut Call) {
    let count = call.counts.formulas.clamp(1, limits::FORMULAS);
    let (first, second) = (prng.below(count), prng.below(count + 1));
    let (first, second) = (first.min(second), first.max(second));
    if call.forms.len() >= 3 * second + 3 {
        call.forms.copy_within(3 * first..3 * first + 3, 3 * second);
    }
}

fn fault_in_clause(prng: &mut Prng, call: &mut Call) {
    let line = prng.below(call.counts.lines.clamp(1, limits::LINES));
    let number = off_number(prng, call.counts.formulas.min(limits::FORMULAS));
    let named = prng.below(call.counts.formulas.clamp(1, limits::FORMULAS));
    if let Some(entry) = call.clauses.get_mut(line) {
        *entry = prng.pick(&[number, named, named]) as u16;
    }
}

fn fault_in_step(prng: &mut Prng, call: &mut Call) {
    let step = prng.below(call.counts.steps.clamp(1, limits::STEPS));
    let Some(entry) = call.steps.get_mut(2 * step..2 * step + 2) else {
        return;
    };
    match prng.below(3) {
        0 => entry[0] = prng.pick(&[18, 19, 255, 256, u16::MAX]),
        1 => entry[0] = prng.below(STEPS.len()) as u16,
        _ => entry[1] = prng.pick(&[1, 2, 32, 64, 256, u16::MAX]),
    }
}

/// A nonzero entry just past the counts, at the end of the room, or at the end of what was lent.
fn mark_tail(prng: &mut Prng, call: &mut Call) {
    let counts = &call.counts;
    let (table, first, room) = match prng.below(3) {
        0 => (&mut call.forms, 3usize.saturating_mul(counts.formulas), limits::FORMS_ROOM),
        1 => (&mut call.clauses, counts.lines, limits::CLAUSES_ROOM),
        _ => (&mut call.steps, 2usize.saturating_mul(counts.steps), limits::STEPS_ROOM),
    };
    let last = table.len().wrapping_sub(1);
    let at = prng.pick(&[first, first, first.saturating_add(1), room - 1, room, last]);
    if let Some(entry) = table.get_mut(at) {
        *entry = prng.pick(&[1, 7, u16::MAX]);
    }
}

/// A count out of range; some would be in range if cut to 16 or 32 bits.
fn fault_in_count(prng: &mut Prng, call: &mut Call) {
    let counts = &mut call.counts;
    let (count, limit) = match prng.below(6) {
        0 => (&mut counts.principals, limits::PRINCIPALS),
        1 => (&mut counts.atoms, limits::ATOMS),
        2 => (&mut counts.formulas, limits::FORMULAS),
        3 => (&mut counts.lines, limits::LINES),
        4 => (&mut counts.goal, limits::FORMULAS - 1),
        _ => (&mut counts.steps, limits::STEPS),
    };
    *count = prng.pick(&[0, limit + 1, 65_535, count.wrapping_add(1 << 16), count.wrapping_add(1 << 32), usize::MAX]);
}

/// One more or one less, in range: an entry of zeros is `p 0`, formula 0 or `and`.
fn nudge_count(prng: &mut Prng, call: &mut Call) {
    let counts = &mut call.counts;
    let count = match prng.below(5) {
        0 => &mut counts.principals,
        1 => &mut counts.atoms,
        2 => &mut counts.formulas,
        3 => &mut counts.lines,
        _ => &mut counts.steps,
    };
    *count = if prng.once_in(2) { count.saturating_add(1) } else { count.saturating_sub(1) };
}
