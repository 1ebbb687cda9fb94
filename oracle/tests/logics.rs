//! One request in either version and by either logic.

use oracle::generate::logics::in_version_2;
use oracle::generate::{self, Text};
use oracle::{gate, refusal, GateAnswer, Logic};

/// The answers in version 1, and in version 2 with either logic; none for a text that does not begin so, or is about as long as may be.
fn answers(text: &Text) -> Option<[GateAnswer; 3]> {
    if text.bytes.len() > 65_000 {
        return None;
    }
    let [plain, unit] = [Logic::Plain, Logic::Unit].map(|logic| in_version_2(text, logic));
    Some([gate(&text.bytes), gate(&plain?.bytes), gate(&unit?.bytes)])
}

#[test]
fn plain_is_version_1_with_lines_one_higher() {
    let mut told = 0;
    for text in generate::directed().into_iter().chain((0..3_000).map(|index| generate::random_text(71, index))) {
        let Some([one, plain, _]) = answers(&text) else {
            continue;
        };
        let is_line = one.steps == 0 && one.answer != refusal::FILE_TOO_LONG;
        let want = GateAnswer { place: one.place + usize::from(is_line), ..one };
        assert_eq!(plain, want, "{}", text.name);
        told += 1;
    }
    assert!(told > 3_000, "{told}");
}

#[test]
fn only_a_fact_that_is_absent_moves_with_the_unit_law() {
    let (mut same, mut moved) = (0, 0);
    for text in generate::directed().into_iter().chain((0..4_000).map(|index| generate::random_text(72, index))) {
        let Some([_, plain, unit]) = answers(&text) else {
            continue;
        };
        if plain == unit {
            same += 1;
            continue;
        }
        moved += 1;
        assert_eq!(plain.answer, refusal::FACT_ABSENT, "{}", text.name);
        assert!(unit.answer == refusal::NONE || unit.place > plain.place, "{}", text.name);
        assert_eq!(unit.steps, plain.steps, "{}", text.name);
    }
    assert!(same > 3_000 && moved > 50, "{same} {moved}");
}
