//! Each step kind in each phase over each formula kind.

use super::request::Request;
use super::Text;
use crate::tables::{Form, Step, STEPS};

/// Where the formula under test stands when the step comes.
#[derive(Clone, Copy, Debug, PartialEq, Eq)]
enum At {
    Goal,
    Chunk,
    Focus,
}

/// One of each kind: p, top, bot, and, or, imp, says, sf, then the number of the one wanted.
fn kind_table(kind: usize) -> (Request, usize) {
    let mut request = Request::new(2, 2);
    let atom = request.add(Form::P(0));
    request.add(Form::P(1));
    let form = match kind {
        0 => Form::P(0),
        1 => Form::Top,
        2 => Form::Bot,
        3 => Form::And(atom, 1),
        4 => Form::Or(atom, 1),
        5 => Form::Imp(atom, 1),
        6 => Form::Says(1, atom),
        _ => Form::Sf(0, 1),
    };
    let number = request.add(form);
    (request, number)
}

/// Whether document 01 gives this step here; else it is refusal 7.
fn fits(at: At, kind: usize, step: Step) -> bool {
    let kinds: &[usize] = match (at, step) {
        (At::Goal, Step::And) | (At::Chunk, Step::Split) | (At::Focus, Step::Left | Step::Right) => &[3],
        (At::Goal, Step::Or1 | Step::Or2) | (At::Chunk, Step::Case) => &[4],
        (At::Goal, Step::Imp) => &[5],
        (At::Goal, Step::Says) => &[6],
        (At::Goal, Step::Top) | (At::Chunk, Step::Drop) => &[1],
        (At::Goal, Step::Sf) | (At::Chunk, Step::Note) => &[7],
        (At::Goal, Step::Use(_)) | (At::Focus, Step::Hit) => &[0],
        (At::Focus, Step::To(_)) => &[5, 6],
        (At::Chunk, Step::Push) => &[0, 5, 6],
        (At::Chunk, Step::Absurd) => &[2],
        _ => &[],
    };
    kinds.contains(&kind)
}

/// Every case; an answer is given beforehand where the step does not fit.
pub fn phases() -> Vec<Text> {
    let mut texts = Vec::new();
    for at in [At::Goal, At::Chunk, At::Focus] {
        // No clause is a `bot`, `or` or `sf`, so none of these comes into focus.
        let kinds: &[usize] = if at == At::Focus { &[0, 1, 3, 5, 6] } else { &[0, 1, 2, 3, 4, 5, 6, 7] };
        for &kind in kinds {
            for (word, step) in STEPS {
                let numbers: &[usize] = if step.number().is_some() { &[0, 1, 2, 9] } else { &[0] };
                for &number in numbers {
                    let name = format!("d-{at:?}-{kind}-{word}-{number}").to_lowercase();
                    texts.push(stepped(at, kind, step.with(number), name));
                }
            }
        }
    }
    texts.extend(after_all_is_closed());
    texts
}

fn stepped(at: At, kind: usize, step: Step, name: String) -> Text {
    let (mut request, number) = kind_table(kind);
    match at {
        At::Goal => {
            request.goal = number;
            request.policy = vec![0];
        }
        At::Chunk => {
            request.goal = request.add(Form::Imp(number, 0));
            request.policy = vec![0];
            request.steps = vec![Step::Imp];
        }
        At::Focus => {
            request.goal = 0;
            request.policy = vec![number];
            request.steps = vec![Step::Use(0)];
        }
    }
    request.steps.push(step);
    if fits(at, kind, step) {
        request.named(name)
    } else {
        request.wanting(name, 7, request.steps.len())
    }
}

fn after_all_is_closed() -> Vec<Text> {
    let closed = |(word, step): (&str, Step)| {
        let mut request = Request::new(1, 1);
        request.goal = request.add(Form::Top);
        request.steps = vec![Step::Top, step, Step::Top];
        request.wanting(format!("d-closed-{word}"), 11, 2)
    };
    STEPS.map(closed).to_vec()
}
