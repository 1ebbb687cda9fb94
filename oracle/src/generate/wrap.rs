//! Granted requests brought near a limit: the goal is wrapped so that its derivation begins with many worlds,
//! clauses or open obligations, and the numbers of its steps move along.

use super::prng::Prng;
use super::request::Request;
use crate::limits;
use crate::tables::{Form, Step};

/// Wraps a request's goal; it stays granted unless that takes it past a limit.
pub fn wrap(prng: &mut Prng, request: &mut Request) {
    match prng.below(3) {
        0 => {
            let count = near(prng, limits::WORLDS - 1);
            wrap_in_worlds(request, count);
        }
        1 => {
            let count = near(prng, limits::CLAUSES - request.policy.len());
            wrap_in_clauses(prng, request, count);
        }
        _ => {
            let count = near(prng, limits::OPEN - 1);
            wrap_in_open(request, count);
        }
    }
}

/// A number from 1 to a limit, mostly close to it.
fn near(prng: &mut Prng, limit: usize) -> usize {
    let less = if prng.once_in(4) { prng.below(limit) } else { prng.below(8) };
    limit.saturating_sub(less).max(1)
}

/// Adds `count` worlds before the first: what held at the root holds at the last of them by rules 5, 6 and 8.
fn wrap_in_worlds(request: &mut Request, count: usize) {
    let top = request.add(Form::Top);
    request.goal = (0..count).fold(request.goal, |goal, _| request.add(Form::Imp(top, goal)));
    for step in &mut request.steps {
        if let Step::To(world) = step {
            *world += count;
        }
    }
    request.steps.splice(0..0, [Step::Imp, Step::Drop].repeat(count));
}

/// Pushes `count` clauses first, in one world more.
fn wrap_in_clauses(prng: &mut Prng, request: &mut Request, count: usize) {
    let clause = Form::P(prng.below(request.atoms));
    let clause = request.add(clause);
    let chunk = (1..count).fold(clause, |rest, _| request.add(Form::And(clause, rest)));
    request.goal = request.add(Form::Imp(chunk, request.goal));
    let lines = request.policy.len();
    for step in &mut request.steps {
        match step {
            Step::To(world) => *world += 1,
            Step::Use(number) if *number >= lines => *number += count,
            _ => (),
        }
    }
    let pushes = [vec![Step::Imp], [Step::Split, Step::Push].repeat(count - 1), vec![Step::Push]].concat();
    request.steps.splice(0..0, pushes);
}

/// Leaves `count` obligations waiting.
fn wrap_in_open(request: &mut Request, count: usize) {
    let top = request.add(Form::Top);
    request.goal = (0..count).fold(request.goal, |goal, _| request.add(Form::And(goal, top)));
    request.steps.splice(0..0, vec![Step::And; count]);
    request.steps.extend(vec![Step::Top; count]);
}
