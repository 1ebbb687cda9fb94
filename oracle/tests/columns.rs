//! The column by the document's words: what a beginning can become is tried, with the reader alone to tell what is in shape.

use oracle::generate::{self, Text};
use oracle::tables::{Operand, KINDS, LOGICS, STEPS};
use oracle::{gate, limits, read, refusal};

/// Whether the line that `before` has ended at is in shape, given the rest of it: the reader does not answer 2 there.
fn in_shape(before: &[u8], line: &[u8], place: usize) -> bool {
    let (mut forms, mut clauses, mut steps) =
        ([0; limits::FORMS_ROOM], [0; limits::CLAUSES_ROOM], [0; limits::STEPS_ROOM]);
    let answer = read(&[before, line].concat(), &mut forms, &mut clauses, &mut steps);
    (answer.refusal, answer.place) != (refusal::OUT_OF_SHAPE, place)
}

/// Lines enough that some end of one of them goes on from any beginning that can go on: every number in them is 0.
fn some_lines() -> Vec<String> {
    let keys = ["version", "principals", "atoms", "formulas", "clauses", "clause", "goal", "steps"];
    let numbers = keys.map(|key| format!("{key}=0\n"));
    let forms = KINDS.iter().map(|(word, operands)| {
        let items = operands.iter().filter(|operand| **operand != Operand::Nothing).count();
        format!("form={word}{}\n", " 0".repeat(items))
    });
    let steps = STEPS.iter().map(|(word, step)| {
        let items = usize::from(step.number().is_some());
        format!("step={word}{}\n", " 0".repeat(items))
    });
    let logics = LOGICS.iter().map(|(word, _)| format!("logic={word}\n"));
    numbers.into_iter().chain(logics).chain(forms).chain(steps).collect()
}

fn some_ends() -> Vec<Vec<u8>> {
    let lines = some_lines();
    let ends = lines.iter().flat_map(|line| (0..=line.len()).map(|at| line.as_bytes()[at..].to_vec()));
    let mut ends: Vec<Vec<u8>> = ends.collect();
    ends.sort();
    ends.dedup();
    ends
}

/// The first column at which nothing goes on, or one past the end.
fn declared_column(file: &[u8], place: usize, ends: &[Vec<u8>]) -> usize {
    let start: usize = file.split_inclusive(|&byte| byte == b'\n').take(place - 1).map(<[u8]>::len).sum();
    let (before, text) = file.split_at(start);
    for column in 1..=text.len() {
        let beginning = &text[..column];
        let goes_on = |end: &Vec<u8>| in_shape(before, &[beginning, end].concat(), place);
        let goes_on = match beginning.ends_with(b"\n") {
            true => goes_on(&Vec::new()),
            false => ends.iter().any(goes_on),
        };
        if !goes_on {
            return column;
        }
    }
    text.len() + 1
}

fn check(texts: impl Iterator<Item = Text>) -> usize {
    let ends = some_ends();
    let mut checked = 0;
    for text in texts {
        let answer = gate(&text.bytes);
        if answer.answer != refusal::OUT_OF_SHAPE {
            assert_eq!(answer.column, 0, "{}", text.name);
            continue;
        }
        // A long file takes long, and shows no more.
        if text.bytes.len() < 600 {
            assert_eq!(answer.column, declared_column(&text.bytes, answer.place, &ends), "{}", text.name);
            checked += 1;
        }
    }
    checked
}

#[test]
fn p1_changed_and_cut_at_every_byte() {
    let version_2 = generate::logics::logics().into_iter();
    let checked = check(generate::columns::columns().into_iter().chain(generate::document::cuts()).chain(version_2));
    assert!(checked > 550, "{checked}");
}

#[test]
fn faulty_lines_and_random_files() {
    let files =
        generate::faults::faults().into_iter().step_by(3).chain((0..900).map(|index| generate::random_text(61, index)));
    let checked = check(files);
    assert!(checked > 150, "{checked}");
}
