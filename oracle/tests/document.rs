//! Document 01's own cases.

use oracle::generate::{document, Text};
use oracle::{gate_by, Way};

fn check(texts: &[Text]) {
    for text in texts {
        for way in [Way::Kept, Way::Afresh] {
            let (want, got) = (text.want.expect("an answer"), gate_by(way, &text.bytes));
            assert!(want.is_met_by(got), "{} {way:?}: wanted {want:?}, got {got:?}", text.name);
        }
    }
}

#[test]
fn p1_to_p12() {
    let texts = document::numbered();
    assert_eq!(texts.len(), 12);
    check(&texts);
}

#[test]
fn further_cases() {
    check(&document::further());
}

#[test]
fn p1_cut_after_every_byte() {
    check(&document::cuts());
}
