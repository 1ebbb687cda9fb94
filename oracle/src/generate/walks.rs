//! Random walks: any step that the judge takes, again and again, over a random request.

use super::change::any_step;
use super::prng::Prng;
use super::random::{add_goal, random_policy};
use super::request::Request;
use crate::facts::{Facts, Kept};
use crate::tables::{Forms, Step, STEPS};
use crate::walk::Walk;

/// A request whose steps fit one after the other, until one perhaps does not.
pub fn walked(prng: &mut Prng) -> Request {
    let mut request = random_policy(prng);
    let size = prng.between(1, 7);
    request.goal = add_goal(prng, &mut request, size);
    let (forms, policy, _) = request.tables();
    let policy = &policy[..request.policy.len()];
    let mut walk = Walk::new(Forms(&forms), policy, request.goal, Kept::root(request.logic, request.principals));
    let length = prng.between(1, 120);
    for _ in 0..length {
        match step_that_fits(prng, &mut walk) {
            Some(step) if !prng.once_in(60) => request.steps.push(step),
            _ => break,
        }
    }
    if request.steps.is_empty() || prng.once_in(2) {
        let step = if prng.once_in(2) { refused_step(prng, &walk) } else { None };
        request.steps.push(step.unwrap_or_else(|| any_step(prng)));
    }
    request
}

/// A step that fits here and is refused all the same.
fn refused_step(prng: &mut Prng, walk: &Walk<Kept>) -> Option<Step> {
    let step = |_| any_step(prng);
    (0..80).map(step).find(|step| matches!(walk.clone().take(*step), Err(8..=10)))
}

fn step_that_fits(prng: &mut Prng, walk: &mut Walk<Kept>) -> Option<Step> {
    walk.current()?;
    for _ in 0..80 {
        let kind = prng.pick(&STEPS).1;
        let step = match kind {
            Step::Use(_) => kind.with(prng.below(walk.clauses() + 1)),
            _ => kind.with(prng.below(walk.worlds() + 1)),
        };
        if walk.take(step).is_ok() {
            return Some(step);
        }
    }
    None
}
