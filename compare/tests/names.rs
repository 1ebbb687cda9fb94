//! Every number that the C header and the Rust crate name, held to the oracle's: kinds by the document's words and their order,
//! limits, rooms, refusals.

use oracle::tables::{KINDS, LOGICS, STEPS};
use oracle::{limits, refusal};
use std::collections::BTreeMap;

const HEADER: &str = include_str!("../../include/peraduksi.h");

/// The names of the header that begin so, without that beginning, with what stands behind the equals sign.
fn named(beginning: &str) -> BTreeMap<&'static str, &'static str> {
    let lines = HEADER.lines().filter_map(|line| line.trim_start().strip_prefix(beginning)?.split_once(" = "));
    lines.map(|(name, value)| (name, value.split([',', ' ']).next().unwrap_or(value))).collect()
}

fn numbers(beginning: &str) -> BTreeMap<String, usize> {
    named(beginning).iter().map(|(name, value)| (name.to_lowercase(), value.parse().expect("a number"))).collect()
}

fn by_word<'a>(words: impl Iterator<Item = &'a str>) -> BTreeMap<String, usize> {
    words.enumerate().map(|(number, word)| (word.to_owned(), number)).collect()
}

#[test]
fn kinds_of_formula_and_step() {
    assert_eq!(numbers("PERADUKSI_FORM_"), by_word(KINDS.iter().map(|(word, _)| *word)));
    assert_eq!(numbers("PERADUKSI_STEP_"), by_word(STEPS.iter().map(|(word, _)| *word)));
}

#[test]
fn limits_of_the_document() {
    let wanted = [
        ("bytes", limits::FILE),
        ("principals", limits::PRINCIPALS),
        ("atoms", limits::ATOMS),
        ("formulas", limits::FORMULAS),
        ("policy_lines", limits::LINES),
        ("steps", limits::STEPS),
        ("step_number", limits::STEP_NUMBER),
        ("worlds", limits::WORLDS),
        ("clauses", limits::CLAUSES),
        ("open", limits::OPEN),
        ("chunks", limits::CHUNKS),
    ];
    assert_eq!(numbers("PERADUKSI_MOST_"), wanted.map(|(name, limit)| (name.to_owned(), limit)).into());
    assert_eq!(peraduksi::MOST_BYTES, limits::FILE);
    let rooms = [peraduksi::FORMS_ROOM, peraduksi::POLICY_ROOM, peraduksi::STEPS_ROOM];
    assert_eq!(rooms, [limits::FORMS_ROOM, limits::CLAUSES_ROOM, limits::STEPS_ROOM]);
}

/// The header writes a room as a factor and a limit, or as a limit alone.
#[test]
fn rooms_of_the_header() {
    let most = numbers("PERADUKSI_MOST_");
    let product = |words: &str| -> usize {
        words
            .split(" * ")
            .map(|word| word.parse().unwrap_or_else(|_| most[&word["PERADUKSI_MOST_".len()..].to_lowercase()]))
            .product()
    };
    let lines = HEADER.lines().filter_map(|line| line.trim().trim_end_matches(',').split_once("_ROOM = "));
    let rooms: Vec<_> = lines.map(|(name, words)| (name, product(words))).collect();
    let wanted = [
        ("PERADUKSI_FORMS", limits::FORMS_ROOM),
        ("PERADUKSI_POLICY", limits::CLAUSES_ROOM),
        ("PERADUKSI_STEPS", limits::STEPS_ROOM),
    ];
    assert_eq!(rooms, wanted);
}

#[test]
fn versions_and_logics() {
    use peraduksi::{Logic, Version};
    assert_eq!(numbers("PERADUKSI_VERSION_"), [("1".to_owned(), 1), ("2".to_owned(), 2)].into());
    assert_eq!([Version::ONE, Version::TWO].map(|version| version.0), [1, 2]);
    assert_eq!(numbers("PERADUKSI_LOGIC_"), by_word(LOGICS.iter().map(|(word, _)| *word)));
    assert_eq!([Logic::Plain, Logic::Unit].map(|logic| logic as usize), [0, 1]);
}

#[test]
fn stack_that_a_call_needs() {
    assert_eq!(named("PERADUKSI_")["STACK"], peraduksi::STACK.to_string());
}

#[test]
fn refusals_of_the_document() {
    use peraduksi::Reason;
    let wanted = [
        ("FILE_TOO_LONG", refusal::FILE_TOO_LONG, Reason::FileTooLong),
        ("OUT_OF_SHAPE", refusal::OUT_OF_SHAPE, Reason::OutOfShape),
        ("OUT_OF_RANGE", refusal::OUT_OF_RANGE, Reason::OutOfRange),
        ("NAMES_LATER", refusal::NAMES_LATER, Reason::NamesLater),
        ("WRONG_CLASS", refusal::WRONG_CLASS, Reason::WrongClass),
        ("BYTES_AFTER", refusal::BYTES_AFTER, Reason::BytesAfter),
        ("DOES_NOT_FIT", refusal::DOES_NOT_FIT, Reason::DoesNotFit),
        ("NO_SUCH_NUMBER", refusal::NO_SUCH_NUMBER, Reason::NoSuchNumber),
        ("FACT_ABSENT", refusal::FACT_ABSENT, Reason::FactAbsent),
        ("PAST_LIMIT", refusal::PAST_LIMIT, Reason::PastLimit),
        ("ALL_CLOSED", refusal::ALL_CLOSED, Reason::AllClosed),
        ("STILL_OPEN", refusal::STILL_OPEN, Reason::StillOpen),
        ("TABLE_TOO_SHORT", refusal::TABLE_TOO_SHORT, Reason::TableTooShort),
        ("OUTPUT_TOO_SHORT", refusal::OUTPUT_TOO_SHORT, Reason::OutputTooShort),
        ("REPEATED", refusal::REPEATED, Reason::Repeated),
        ("UNIT_IN_VERSION_1", refusal::UNIT_IN_VERSION_1, Reason::UnitInVersion1),
    ];
    let names = named("PERADUKSI_");
    assert_eq!(names["GRANTED"], "0");
    for (name, number, reason) in wanted {
        assert_eq!((names[name], reason as u16), (number.to_string().as_str(), number.into()), "{name}");
    }
}
