//! The worst legal requests, for a benchmark.

use super::document::P1;
use super::prng::Prng;
use super::request::Request;
use super::{Text, Want};
use crate::limits;
use crate::tables::{Form, Step};

/// Every heavy request; all are granted but the first, which reads to its end and is refused at its first step.
pub fn heavy() -> Vec<Text> {
    let mut texts = vec![longest_text(), longest_granted(), doubling(), one_head()];
    for (worlds, principals) in [(1, 1), (1, 16), (8, 4), (31, 1), (31, 16), (32, 16), (63, 1), (63, 16), (64, 16)] {
        let request = asking(worlds, principals);
        texts.push(request.wanting(format!("h-asking-{worlds}-worlds-{principals}-principals"), 0, 0));
    }
    texts.extend([many_notes(31, 9), many_notes(62, 5)]);
    texts.extend([31, limits::WORLDS - 1].map(many_worlds));
    texts.push(many_branches());
    texts
}

/// Small requests, one after the other: P1, and random ones of about its size.
pub fn small(seed: u64, count: usize) -> impl Iterator<Item = Text> {
    (0..count).map(move |index| {
        let mut text = super::derive::derived(&mut Prng::new(seed, index as u64)).wanting("", 0, 0);
        if index % 2 == 0 || text.bytes.len() > 2 * P1.len() {
            text = Text { want: Some(Want::new(0, 0, 7)), bytes: P1.into(), ..text }
        }
        Text { name: format!("h-small-{index:06}"), ..text }
    })
}

/// So many formulas, each but the first as long a line as it can be, and all of every class.
fn long_formulas(count: usize) -> Request {
    let mut request = Request::new(limits::PRINCIPALS, limits::ATOMS);
    request.share = false;
    request.add(Form::P(limits::ATOMS - 1));
    for last in 0..count - 1 {
        request.add(Form::And(last, last));
    }
    request
}

/// About the longest text that reads; its first step does not fit.
fn longest_text() -> Text {
    let mut request = long_formulas(limits::FORMULAS);
    request.goal = limits::FORMULAS - 1;
    request.policy = vec![limits::FORMULAS - 1; limits::LINES];
    request.steps = vec![Step::Use(65_535); limits::STEPS];
    request.wanting("h-longest-text", 7, 1)
}

/// A text about as long that is granted: twice down the last policy line to its only atom.
fn longest_granted() -> Text {
    let mut request = long_formulas(limits::FORMULAS - 1);
    request.goal = request.add(Form::Or(1, 1));
    let deep = limits::FORMULAS - 3;
    request.policy = vec![deep; limits::LINES];
    let down = [vec![Step::Use(limits::LINES - 1)], vec![Step::Right; deep], vec![Step::Hit]].concat();
    request.steps = [vec![Step::Or1, Step::And], down.repeat(2)].concat();
    request.wanting("h-longest-granted", 0, 0)
}

/// 1,023 formulas, each the one before twice over.
fn doubling() -> Text {
    let mut request = Request::new(1, 1);
    request.share = false;
    request.add(Form::Top);
    while request.forms.len() < limits::FORMULAS {
        let last = request.forms.len() - 1;
        request.add(Form::Or(last, last));
    }
    request.goal = limits::FORMULAS - 1;
    request.steps = [vec![Step::Or2; limits::FORMULAS - 1], vec![Step::Top]].concat();
    request.wanting("h-doubling", 0, 0)
}

/// As many formulas as may be, all that can with one head in the slots of crates/numbering: what a hostile sender makes of its sum. Should
/// the sum there be another some day, this is a request like others.
fn one_head() -> Text {
    let head = |form: Form| {
        let [kind, left, right] = form.entry();
        (40_503 * left + 30_029 * right + 9_973 * kind) / 64 % 1_024
    };
    let mut request = Request::new(limits::PRINCIPALS, limits::ATOMS);
    request.share = false;
    (0..limits::ATOMS).for_each(|atom| _ = request.add(Form::P(atom)));
    let room = limits::FORMULAS - 1;
    // The formulas that name this one as the larger of their parts, from the first on: each then names earlier ones only.
    for last in 0.. {
        let pairs = (0..=last).flat_map(|other| [(last, other), (other, last)]);
        for (left, right) in pairs {
            for form in [Form::And(left, right), Form::Or(left, right), Form::Imp(left, right)] {
                if head(form) == 7
                    && request.forms.len() < room
                    && request.forms.len() > last
                    && !request.forms.contains(&form)
                {
                    request.add(form);
                }
            }
        }
        if request.forms.len() == room || last == room {
            break;
        }
    }
    request.goal = request.add(Form::Top);
    request.steps = vec![Step::Top];
    request.wanting("h-one-head", 0, 0)
}

/// About 2,048 steps in the last of so many worlds, nearly all of which ask about facts: `to` on an `imp` whose
/// left part is an `sf`, and that `sf` afterwards.
fn asking(worlds: usize, principals: usize) -> Request {
    let mut request = Request::new(principals, 1);
    let last = principals - 1;
    request.policy = (0..last).map(|a| request.add(Form::Sf(a, a + 1))).collect();
    let atom = request.add(Form::P(0));
    let question = request.add(Form::Sf(0, last));
    // As many as four rounds leave room for, with at most 255 subgoals in each.
    let subgoals = ((limits::STEPS - worlds) / 4 - 4) / 2;
    let clause = (0..subgoals).fold(atom, |right, _| request.add(Form::Imp(question, right)));
    // A clause at the root gets to another world by what principal 0 says there, by rule 2.
    let away = usize::from(worlds > 1);
    let line = (0..away).fold(clause, |body, _| request.add(Form::Says(0, body)));
    request.policy.push(line);
    let round = [
        vec![Step::Use(request.policy.len() - 1)],
        vec![Step::To(worlds - 1); away + subgoals],
        vec![Step::Hit],
        vec![Step::Sf; subgoals],
    ];
    let goal = (0..2).fold(atom, |part, _| request.add(Form::And(part, part)));
    request.goal = (1..worlds).fold(goal, |body, _| request.add(Form::Says(last, body)));
    let rounds = (0..2).fold(round.concat(), |part, _| [vec![Step::And], part.repeat(2)].concat());
    request.steps = [vec![Step::Says; worlds - 1], rounds].concat();
    request
}

/// Fifteen notes in each of so many worlds, then what follows from them asked for again and again, `doublings` times twice over.
fn many_notes(worlds: usize, doublings: usize) -> Text {
    let last = limits::PRINCIPALS - 1;
    let mut request = Request::new(limits::PRINCIPALS, 1);
    let top = request.add(Form::Top);
    let pairs: Vec<usize> = (0..last).map(|a| request.add(Form::Sf(a, a + 1))).collect();
    let chunk = pairs.iter().fold(top, |rest, pair| request.add(Form::And(*pair, rest)));
    let asked = request.add(Form::Sf(0, last));
    let tree = (0..doublings).fold(asked, |part, _| request.add(Form::And(part, part)));
    request.goal = (0..worlds).fold(tree, |goal, _| request.add(Form::Imp(chunk, goal)));
    let notes = [Step::Split, Step::Note].repeat(pairs.len());
    let world = [vec![Step::Imp], notes, vec![Step::Drop]].concat();
    let questions = (0..doublings).fold(vec![Step::Sf], |part, _| [vec![Step::And], part.repeat(2)].concat());
    request.steps = [world.repeat(worlds), questions].concat();
    request.wanting(format!("h-many-notes-{worlds}-worlds"), 0, 0)
}

/// So many worlds made, forgotten and made again, over and over.
fn many_worlds(worlds: usize) -> Text {
    let mut request = Request::new(limits::PRINCIPALS, 1);
    let top = request.add(Form::Top);
    let tower = (0..worlds).fold(top, |body, height| request.add(Form::Says(height % limits::PRINCIPALS, body)));
    let times = (limits::STEPS + 1) / (worlds + 2);
    request.goal = (1..times).fold(tower, |rest, _| request.add(Form::And(tower, rest)));
    let once = [vec![Step::Says; worlds], vec![Step::Top]].concat();
    for left in (0..times).rev() {
        request.steps.extend(vec![Step::And; usize::from(left > 0)]);
        request.steps.extend(&once);
    }
    request.wanting(format!("h-many-worlds-{worlds}"), 0, 0)
}

/// Eight `or` after each other, a `case` on each of them, a note in every branch.
fn many_branches() -> Text {
    let mut request = Request::new(limits::PRINCIPALS, 1);
    let note = request.add(Form::Sf(0, 1));
    let either = request.add(Form::Or(note, note));
    let branching = 8;
    let chunk = (1..branching).fold(either, |rest, _| request.add(Form::And(either, rest)));
    request.goal = request.add(Form::Imp(chunk, note));
    request.steps = [vec![Step::Imp], branches(branching)].concat();
    request.wanting("h-many-branches", 0, 0)
}

/// The steps from a chunk that holds so many `or` on.
fn branches(left: usize) -> Vec<Step> {
    if left == 0 {
        return vec![Step::Sf];
    }
    let split = vec![Step::Split; usize::from(left > 1)];
    let each = [vec![Step::Note], branches(left - 1)].concat();
    [split, vec![Step::Case], each.repeat(2)].concat()
}
