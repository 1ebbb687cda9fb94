//! The ways to have closed facts agree, and files tell a wrong rule sheet from the right one.

use oracle::facts::{Afresh, Facts, Kept};
use oracle::generate::naive::{Naive, Wrong, WRONG};
use oracle::generate::prng::Prng;
use oracle::generate::{self, Text};
use oracle::tables::{Forms, Step};
use oracle::walk::Walk;
use oracle::{gate, gate_by, limits, read, refusal, Logic, Way};

#[test]
fn afresh_and_kept_answer_the_same() {
    for text in generate::texts(41, 9_000) {
        assert_eq!(gate_by(Way::Afresh, &text.bytes), gate_by(Way::Kept, &text.bytes), "{}", text.name);
    }
}

/// Grows a branch as a walk can: worlds anywhere, notes at the newest world, now and then back to an earlier sequent.
fn grow_both<F: Facts, G: Facts>(
    logic: Logic,
    prng: &mut Prng,
    principals: usize,
    worlds: usize,
    compare: impl Fn(&F, &G),
) {
    let (mut one, mut other) = (F::root(logic, principals), G::root(logic, principals));
    let mut marks = vec![(one.mark(), other.mark())];
    for _ in 0..3 * worlds {
        let (u, a, b) = (prng.below(one.worlds()), prng.below(principals), prng.below(principals));
        match prng.below(8) {
            0 | 1 if one.worlds() < worlds => assert_eq!(one.add_above(u), other.add_above(u)),
            2 | 3 if one.worlds() < worlds => assert_eq!(one.add_said(u, a), other.add_said(u, a)),
            4 => marks.push((one.mark(), other.mark())),
            5 if marks.len() > 1 => {
                let (back, other_back) = marks.pop().expect("more than one");
                one.restore(&back);
                other.restore(&other_back);
            }
            _ => {
                one.note(one.worlds() - 1, a, b);
                other.note(other.worlds() - 1, a, b);
            }
        }
        assert_eq!(one.worlds(), other.worlds());
        compare(&one, &other);
    }
}

/// Bit rows against any other way, closed once for all questions.
fn compare_rows<G: Facts>(one: &Afresh, other: &G, principals: usize) {
    let rows = one.close();
    for u in 0..one.worlds() {
        for a in 0..principals {
            for b in 0..principals {
                assert_eq!(rows.sf[u][a] >> b & 1 == 1, other.is_sf(u, a, b), "{u}: {a} sf {b}");
            }
        }
        for v in 0..one.worlds() {
            assert_eq!(rows.below[u] >> v & 1 == 1, other.is_below(u, v), "{u} below {v}");
            for a in 0..principals {
                assert_eq!(rows.said[u][a] >> v & 1 == 1, other.is_said(u, a, v), "{u} S_{a} {v}");
            }
        }
    }
}

#[test]
fn bit_rows_are_the_same_as_kept_at_full_size() {
    for index in 0..40 {
        let prng = &mut Prng::new(42, index);
        let logic = prng.pick(&[Logic::Plain, Logic::Unit]);
        let (principals, worlds) = (prng.pick(&[1, 2, 5, limits::PRINCIPALS]), limits::WORLDS);
        grow_both(logic, prng, principals, worlds, |one, other: &Kept| compare_rows(one, other, principals));
    }
}

#[test]
fn bit_rows_are_the_same_as_one_bool_a_fact() {
    for index in 0..200 {
        let prng = &mut Prng::new(43, index);
        let logic = prng.pick(&[Logic::Plain, Logic::Unit]);
        let (principals, worlds) = (prng.between(1, 4), prng.between(1, 9));
        grow_both(logic, prng, principals, worlds, |one, other: &Naive| compare_rows(one, other, principals));
    }
}

/// The steps of a request that the rule sheet takes, and whether everything is closed then; none if it does not
/// read, or is too large for one bool a fact.
fn by_sheet(text: &Text, wrong: Option<Wrong>) -> Option<(usize, bool)> {
    let (mut forms, mut clauses, mut steps) =
        ([0; limits::FORMS_ROOM], [0; limits::CLAUSES_ROOM], [0; limits::STEPS_ROOM]);
    let answer = read(&text.bytes, &mut forms, &mut clauses, &mut steps);
    let made = steps.chunks_exact(2).filter(|step| matches!(Step::of(step[0].into(), 0), Step::Imp | Step::Says));
    if answer.refusal != refusal::NONE || answer.principals > 4 || answer.steps > 200 || made.count() > 40 {
        return None;
    }
    let facts = Naive::by(answer.logic, answer.principals, wrong);
    let mut walk = Walk::new(Forms(&forms), &clauses[..answer.lines], answer.goal, facts);
    let steps = steps.chunks_exact(2).take(answer.steps);
    let taken = steps.take_while(|step| walk.take(Step::of(step[0].into(), step[1].into())).is_ok()).count();
    Some((taken, walk.current().is_none()))
}

#[test]
fn the_right_rule_sheet_answers_like_the_gate() {
    for text in generate::texts(44, 1_500) {
        let answer = gate(&text.bytes);
        if let Some((taken, closed)) = by_sheet(&text, None) {
            assert_eq!(answer.answer == refusal::NONE, closed && taken == answer.steps, "{}", text.name);
            let refused_step = if matches!(answer.answer, 7..=11) { answer.place - 1 } else { answer.steps };
            assert_eq!(taken, refused_step, "{}", text.name);
        }
    }
}

#[test]
fn every_wrong_rule_sheet_is_found_out() {
    let random = (0..2_000).map(|index| generate::random_text(45, index));
    let texts: Vec<Text> = generate::directed().into_iter().chain(random).collect();
    let right: Vec<Option<(usize, bool)>> = texts.iter().map(|text| by_sheet(text, None)).collect();
    let narrower = (1..=10).map(Wrong::Without).chain([Wrong::Rule6Narrow]);
    for wrong in WRONG.into_iter().chain(narrower) {
        let differs = |(text, right): &(&Text, &Option<(usize, bool)>)| by_sheet(text, Some(wrong)) != **right;
        let found = texts.iter().zip(&right).filter(differs).take(2).count();
        assert_eq!(found, 2, "{wrong:?}");
    }
}
