//! Requests with derivations: built, found, or found by a wrong rule.

use super::build::Build;
use super::naive::{Naive, Wrong, WRONG};
use super::prng::Prng;
use super::random::{add_goal, random_policy};
use super::request::Request;
use super::search::{Search, Sequent, Slip};
use super::standing::is_goal;
use crate::facts::{Facts, Kept};
use crate::gate::gate;
use crate::limits;
use crate::tables::Step;
use crate::walk::Labelled;

const SLIPS: [Slip; 5] = [Slip::FirstMetFirst, Slip::SecondFirst, Slip::CaseLeaks, Slip::HitBackward, Slip::ToAnywhere];

/// A request that is granted.
pub fn derived(prng: &mut Prng) -> Request {
    loop {
        let made = if prng.once_in(2) { Some(built(prng)) } else { found(prng) };
        let short = made.as_ref().is_some_and(|request| request.steps.len() < 3);
        match made {
            // One-step derivations are common and dull.
            Some(request) if request.has_legal_counts() && (!short || prng.once_in(10)) => return request,
            _ => (),
        }
    }
}

fn built(prng: &mut Prng) -> Request {
    let mut request = random_policy(prng);
    let sequent = Sequent::of(&request, Kept::root(request.logic, request.principals));
    let size = prng.pick(&[2, 3, 4, 4, 5, 6, 9]);
    let (goal, steps) = Build { prng, request: &mut request }.goal(&sequent, 0, size);
    request.goal = goal;
    request.steps = steps;
    request
}

fn found(prng: &mut Prng) -> Option<Request> {
    let (mut request, goal) = random_question(prng);
    let sequent = Sequent::of(&request, Kept::root(request.logic, request.principals));
    request.steps = search(prng, &request, &sequent, goal, limits::WORLDS, Slip::None)?;
    Some(request)
}

fn random_question(prng: &mut Prng) -> (Request, Labelled) {
    let mut request = random_policy(prng);
    let asked = if request.forms.is_empty() { 0 } else { prng.below(request.forms.len()) };
    // What the policy has as a part is often worth asking for.
    if prng.once_in(4) && !request.forms.is_empty() && is_goal(&request.forms, asked) {
        request.goal = asked;
    } else {
        let size = prng.below(5);
        request.goal = add_goal(prng, &mut request, size);
    }
    let goal = Labelled { formula: request.goal, world: 0 };
    (request, goal)
}

fn search<F: Facts>(
    prng: &mut Prng,
    request: &Request,
    sequent: &Sequent<F>,
    goal: Labelled,
    worlds: usize,
    slip: Slip,
) -> Option<Vec<Step>> {
    Search { forms: &request.forms, prng, budget: 400, worlds, slip }.prove(sequent, goal, 3)
}

/// A derivation by a rule sheet with one wrong rule; one that is refused, if that can be had soon.
pub fn misled(prng: &mut Prng) -> Request {
    let mut last = None;
    for _ in 0..4 {
        // One rule is stayed with for a while, or the easy ones would crowd out the others.
        let (slip, wrong) = (prng.pick(&SLIPS), prng.pick(&WRONG));
        let by_slip = prng.once_in(3);
        for _ in 0..150 {
            let found = if by_slip { find_by_slip(prng, slip) } else { find_by_wrong_rule(prng, wrong) };
            let Some(request) = found.filter(Request::has_legal_counts) else {
                continue;
            };
            if gate(&request.text()).answer != 0 {
                return request;
            }
            last = Some(request);
        }
    }
    last.unwrap_or_else(|| derived(prng))
}

fn find_by_slip(prng: &mut Prng, slip: Slip) -> Option<Request> {
    let (mut request, goal) = random_question(prng);
    let sequent = Sequent::of(&request, Kept::root(request.logic, request.principals));
    request.steps = search(prng, &request, &sequent, goal, limits::WORLDS, slip)?;
    Some(request)
}

fn find_by_wrong_rule(prng: &mut Prng, wrong: Wrong) -> Option<Request> {
    let (mut request, goal) = random_question(prng);
    // One bool a fact is slow, so the numbers stay small.
    if request.principals > 4 {
        return None;
    }
    let sequent = Sequent::of(&request, Naive::by(request.logic, request.principals, Some(wrong)));
    request.steps = search(prng, &request, &sequent, goal, 7, Slip::None)?;
    Some(request)
}
