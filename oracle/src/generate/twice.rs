//! Formulas that stand twice, and formulas that only look alike.

use super::document::{case, text};
use super::request::Request;
use super::Text;
use crate::limits;
use crate::tables::{Form, Step};

pub fn twice() -> Vec<Text> {
    [each_kind(), alike(), orders(), numbers(), full_tables()].concat()
}

/// Formulas, none of them equal, one of each kind and more.
const BANK: &str = "p 0, p 1, top, bot, and 0 1, or 0 1, imp 0 1, says 0 1, sf 0 1";

/// A request with these formulas and the goal `top`, number 2 of the bank.
fn with_forms(forms: &str) -> String {
    text(&format!("{forms}, top"), "", "top")
}

/// Each formula once more: right after it, after all the others, and both.
fn each_kind() -> Vec<Text> {
    let bank: Vec<&str> = BANK.split(", ").collect();
    let mut texts = Vec::new();
    for (number, form) in bank.iter().enumerate() {
        let mut next = bank.clone();
        next.insert(number + 1, form);
        let last = [&bank[..], &[*form]].concat();
        let both = [&next[..], &[*form]].concat();
        for (name, forms, line) in
            [("next", next, 6 + number), ("last", last, 5 + bank.len()), ("both", both, 6 + number)]
        {
            // The bank's `top` may have moved, and is the goal wherever it is: nothing reads so far.
            let file = with_forms(&forms.join(", "));
            texts.push(case(&format!("twice-{number}-{name}"), file, 15, line, 0));
        }
    }
    texts
}

/// Formulas that differ in one thing: all read.
fn alike() -> Vec<Text> {
    let swapped = format!("{BANK}, and 1 0, or 1 0, imp 1 0, says 1 0, sf 1 0");
    let by_part = format!("{BANK}, and 0 0, and 1 1, and 0 2, and 2 0, and 2 1, and 1 2, and 4 4, and 4 9");
    let by_kind =
        "p 0, p 1, and 0 0, or 0 0, imp 0 0, says 0 0, sf 0 0, and 1 1, or 1 1, imp 1 1, says 1 1, sf 1 1, p 2";
    [("swapped", swapped.as_str()), ("by-part", &by_part), ("by-kind", by_kind)]
        .map(|(name, forms)| case(&format!("alike-{name}"), with_forms(forms), 0, 0, 1))
        .to_vec()
}

/// 15 comes after 2, 3 and 4 of the same or an earlier line, and before any later line.
fn orders() -> Vec<Text> {
    let fine = text("p 0, p 1, and 0 1, and 0 1, top", "0", "top");
    let with = |name: &str, from: &str, to: &str, answer: u8, line: usize| {
        assert!(fine.contains(from), "{name}");
        case(&format!("twice-{name}"), fine.replacen(from, to, 1), answer, line, 0)
    };
    let cut = |name: &str, upto: &str, answer: u8, line: usize| {
        let end = fine.rfind(upto).expect("it is there") + upto.len();
        case(&format!("twice-{name}"), &fine[..end], answer, line, 0)
    };
    vec![
        with("alone", "form=p 0", "form=p 0", 15, 8),
        with("after-2", "form=p 1", "form=p", 2, 6),
        with("after-3", "form=p 1", "form=p 3", 3, 6),
        with("after-4", "and 0 1", "and 0 2", 4, 7),
        with("after-another", "form=p 1", "form=p 0", 15, 6),
        with("before-2", "form=top", "form=tops", 15, 8),
        with("before-3", "form=top", "form=p 3", 15, 8),
        with("before-4", "form=top", "form=and 4 0", 15, 8),
        with("before-another", "form=top", "form=p 0", 15, 8),
        with("before-count", "clauses=1", "clauses=129", 15, 8),
        with("before-clause", "clause=0", "clause=5", 15, 8),
        with("before-class", "form=top", "form=bot", 15, 8),
        with("before-steps", "steps=1", "steps=0", 15, 8),
        with("before-more", "step=top\n", "step=top\n\n", 15, 8),
        with("before-step", "step=top", "step=and", 15, 8),
        with("count-too-small", "formulas=5", "formulas=3", 2, 8),
        cut("without-lf", "and 0 1", 2, 8),
        cut("cut-after-lf", "and 0 1\n", 15, 8),
        cut("cut-within", "and 0", 2, 8),
        with("shape-first", "and 0 1\nform=and 0 1", "and 0 1\nform=and 0 1 ", 2, 8),
    ]
}

/// Policy lines and goal may name one formula as often as they like.
fn numbers() -> Vec<Text> {
    let lines = text("p 0, p 1, p 0", "0, 0, 1, 0", "use 3, hit");
    let goal = text("p 0, imp 0 0, imp 0 0", "0, 1, 1", "imp, push, use 3, hit");
    vec![case("twice-lines", lines, 0, 0, 2), case("twice-goal", goal, 0, 0, 4)]
}

/// As many formulas as may be: all different, and the last, the second or all of them a repetition.
fn full_tables() -> Vec<Text> {
    let mut request = Request::new(limits::PRINCIPALS, limits::ATOMS);
    request.share = false;
    let atoms = 30;
    (0..atoms).for_each(|atom| _ = request.add(Form::P(atom)));
    // Pairs in order, so that neighbours differ in one operand only.
    for first in 0..atoms {
        for second in 0..atoms {
            if request.forms.len() < limits::FORMULAS - 1 {
                request.add(Form::And(first, second));
            }
        }
    }
    (0..limits::PRINCIPALS).for_each(|principal| _ = request.add(Form::Says(principal, 0)));
    while request.forms.len() < limits::FORMULAS - 1 {
        request.add(Form::Sf(request.forms.len() % 16, request.forms.len() / 16 % 16));
    }
    request.goal = request.add(Form::Top);
    request.steps = vec![Step::Top];
    let last = limits::FORMULAS - 1;
    let mut texts = vec![request.wanting("d-full-all-different", 0, 0)];
    for (from, at) in [(0, last), (last - 1, last), (500, last), (500, 501), (0, 1), (29, 930)] {
        let mut again = request.clone();
        again.forms[at] = again.forms[from];
        texts.push(again.wanting(format!("d-full-{from}-at-{at}"), 15, 5 + at));
    }
    let mut same = request.clone();
    same.forms = vec![Form::Top; limits::FORMULAS];
    texts.push(same.wanting("d-full-all-the-same", 15, 6));
    texts
}
