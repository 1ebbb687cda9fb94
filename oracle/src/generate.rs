//! Request files and calls on tables, the same for the same seed.

pub mod bounds;
pub mod build;
pub mod change;
pub mod columns;
pub mod derive;
pub mod document;
pub mod faults;
pub mod heavy;
pub mod lent;
pub mod logics;
pub mod naive;
pub mod phases;
pub mod prng;
pub mod random;
pub mod request;
pub mod search;
pub mod standing;
pub mod traps;
pub mod twice;
pub mod walks;
pub mod wrap;

pub use lent::{loans, tables, Call, Loan};

use crate::answers::{refusal, GateAnswer};
use prng::Prng;
use request::Request;

/// A request file.
#[derive(Clone, Debug, PartialEq, Eq)]
pub struct Text {
    pub name: String,
    pub bytes: Vec<u8>,
    /// The answer, where it is known from how the file was made and without asking the gate.
    pub want: Option<Want>,
}

/// An answer that is known beforehand.
#[derive(Clone, Copy, Debug, PartialEq, Eq)]
pub struct Want {
    pub answer: u8,
    pub place: usize,
    pub steps: usize,
    /// Refusal 2 has a column, which may not be known.
    pub column: Option<usize>,
}

impl Want {
    pub fn new(answer: u8, place: usize, steps: usize) -> Want {
        Want { answer, place, steps, column: (answer != refusal::OUT_OF_SHAPE).then_some(0) }
    }

    pub fn at_column(self, column: usize) -> Want {
        Want { column: Some(column), ..self }
    }

    pub fn is_met_by(&self, got: GateAnswer) -> bool {
        (self.answer, self.place, self.steps) == (got.answer, got.place, got.steps)
            && self.column.is_none_or(|column| column == got.column)
    }
}

/// The files made on purpose: the documents' cases, limits, faulty lines, each step in each phase, classes, formulas
/// that stand twice, columns, version 2, and what is easy to get wrong.
pub fn directed() -> Vec<Text> {
    [
        document::numbered(),
        document::further(),
        document::cuts(),
        bounds::bounds(),
        faults::faults(),
        phases::phases(),
        standing::standings(),
        traps::traps(),
        twice::twice(),
        columns::columns(),
        logics::logics(),
    ]
    .concat()
}

/// `count` files: two of three made on purpose until there are no more, the others random.
pub fn texts(seed: u64, count: usize) -> impl Iterator<Item = Text> {
    let mut on_purpose = directed();
    Prng::new(seed, u64::MAX).shuffle(&mut on_purpose);
    (0..count).map(move |index| {
        let due = if index % 3 < 2 { on_purpose.pop() } else { None };
        due.unwrap_or_else(|| random_text(seed, index))
    })
}

/// A random file; its family's letter and its index make its name.
pub fn random_text(seed: u64, index: usize) -> Text {
    let prng = &mut Prng::new(seed, index as u64);
    let family = prng.weigh(&[20, 18, 12, 12, 4, 12, 14, 8]);
    let name = |letter: char| format!("{letter}{index:06}");
    match family {
        0 => derive::derived(prng).wanting(name('a'), 0, 0),
        1 => changed(prng, change::change_steps).named(name('b')),
        2 => in_bytes(prng, change::change_bytes, name('c')),
        3 => changed(prng, change::change_request).named(name('f')),
        4 => in_bytes(prng, change::cut_short, name('s')),
        5 => derive::misled(prng).named(name('m')),
        6 => walks::walked(prng).named(name('w')),
        _ => changed(prng, wrap::wrap).named(name('l')),
    }
}

fn changed(prng: &mut Prng, change: fn(&mut Prng, &mut Request)) -> Request {
    let mut request = derive::derived(prng);
    change(prng, &mut request);
    request
}

fn in_bytes(prng: &mut Prng, change: fn(&mut Prng, &mut Vec<u8>), name: String) -> Text {
    let mut text = derive::derived(prng).named(name);
    change(prng, &mut text.bytes);
    text
}
