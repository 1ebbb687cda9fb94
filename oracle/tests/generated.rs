//! Generated files: their answers where these are known beforehand, and what the generator promises.

use oracle::generate::{self, heavy, Text};
use oracle::{gate, gate_by, refusal, Way};
use std::collections::{BTreeMap, BTreeSet, HashSet};

fn check_wanted(text: &Text) {
    if let Some(want) = text.want {
        let got = gate(&text.bytes);
        assert!(want.is_met_by(got), "{}: wanted {want:?}, got {got:?}", text.name);
    }
}

#[test]
fn files_made_on_purpose_are_answered_as_they_were_meant() {
    let texts = generate::directed();
    texts.iter().for_each(check_wanted);
    assert!(texts.len() > 1_500, "{}", texts.len());
    let names: HashSet<&str> = texts.iter().map(|text| text.name.as_str()).collect();
    assert_eq!(names.len(), texts.len(), "a name for each");
}

#[test]
fn a_step_that_fits_is_never_refusal_7_at_its_place() {
    let fitting = generate::phases::phases().into_iter().filter(|text| text.want.is_none());
    for text in fitting {
        let answer = gate(&text.bytes);
        assert_ne!(answer.answer, refusal::DOES_NOT_FIT, "{}", text.name);
    }
}

#[test]
fn derivations_are_granted() {
    (0..6_000).map(|index| generate::random_text(3, index)).for_each(|text| check_wanted(&text));
}

#[test]
fn a_wrapped_derivation_is_granted_or_past_a_limit() {
    let wrapped = (0..8_000).map(|index| generate::random_text(4, index)).filter(|text| text.name.starts_with('l'));
    let mut answers = BTreeSet::new();
    for text in wrapped {
        let answer = gate(&text.bytes).answer;
        let allowed = [refusal::NONE, refusal::OUT_OF_RANGE, refusal::PAST_LIMIT];
        assert!(allowed.contains(&answer), "{} {answer}", text.name);
        answers.insert(answer);
    }
    assert!(answers.contains(&refusal::NONE) && answers.contains(&refusal::PAST_LIMIT));
}

#[test]
fn every_refusal_of_a_file_is_met_often() {
    let mut met: BTreeMap<u8, usize> = BTreeMap::new();
    for text in generate::texts(5, 6_000) {
        *met.entry(gate(&text.bytes).answer).or_default() += 1;
    }
    for answer in (0..=12).chain([refusal::REPEATED]) {
        assert!(met.get(&answer).is_some_and(|&times| times >= 5), "{answer}: {met:?}");
    }
}

#[test]
fn the_same_seed_gives_the_same_files() {
    assert!(generate::texts(6, 900).eq(generate::texts(6, 900)));
    assert!(generate::tables(6, 300).eq(generate::tables(6, 300)));
    assert!(generate::loans(6, 300).eq(generate::loans(6, 300)));
    assert!(!generate::texts(6, 90).eq(generate::texts(7, 90)));
}

#[test]
fn heavy_requests_are_answered_as_they_were_meant() {
    for text in heavy::heavy() {
        check_wanted(&text);
        assert_eq!(gate_by(Way::Afresh, &text.bytes), gate(&text.bytes), "{}", text.name);
    }
    heavy::small(1, 500).for_each(|text| check_wanted(&text));
}
