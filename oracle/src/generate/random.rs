//! Random formulas of each class, and random policies.

use super::prng::Prng;
use super::request::Request;
use crate::limits;
use crate::tables::{Form, Logic};

/// A request without steps and goal: a few principals and atoms, a random policy.
pub fn random_policy(prng: &mut Prng) -> Request {
    let principals = prng.pick(&[1, 2, 2, 3, 3, 4, limits::PRINCIPALS]);
    let atoms = prng.pick(&[1, 2, 2, 3, 4, limits::ATOMS]);
    let mut request = Request::new(principals, atoms);
    match prng.below(4) {
        0 => request = request.of_logic(Logic::Plain),
        1 => request = request.of_logic(Logic::Unit),
        _ => (),
    }
    if prng.once_in(3) {
        add_delegations(prng, &mut request);
    }
    for _ in 0..prng.below(6) {
        let line =
            if prng.once_in(3) { add_sf(prng, &mut request) } else { add_clause_of_any_size(prng, &mut request) };
        request.policy.push(line);
    }
    if prng.once_in(2) {
        prng.shuffle(&mut request.policy);
    }
    request
}

/// Lines in the manner of case P1: one principal believed, another speaking for it, and what that one says.
fn add_delegations(prng: &mut Prng, request: &mut Request) {
    for _ in 0..prng.between(1, 3) {
        let atom = add_atom(prng, request);
        let (believed, speaker) = (principal(prng, request), principal(prng, request));
        let said = request.add(Form::Says(believed, atom));
        let trust = request.add(Form::Imp(said, atom));
        let handed = request.add(Form::Sf(speaker, believed));
        let statement = request.add(Form::Says(speaker, atom));
        let mut lines = vec![trust, handed, statement];
        if prng.once_in(3) {
            let middle = principal(prng, request);
            lines[1] = request.add(Form::Sf(middle, believed));
            lines.push(request.add(Form::Sf(speaker, middle)));
        }
        match prng.below(6) {
            0 | 1 => lines[0] = request.add(Form::Says(believed, trust)),
            // What is asked for here is who speaks for whom.
            2 | 3 => lines[0] = request.add(Form::Imp(handed, atom)),
            _ => (),
        }
        request.policy.append(&mut lines);
    }
}

pub fn principal(prng: &mut Prng, request: &Request) -> usize {
    few(prng, request.principals)
}

/// One of the first three, now and then the last: few enough to meet again.
fn few(prng: &mut Prng, count: usize) -> usize {
    if prng.once_in(8) {
        count - 1
    } else {
        prng.below(count.min(3))
    }
}

pub fn add_atom(prng: &mut Prng, request: &mut Request) -> usize {
    let atom = few(prng, request.atoms);
    request.add(Form::P(atom))
}

pub fn add_sf(prng: &mut Prng, request: &mut Request) -> usize {
    let (first, second) = (principal(prng, request), principal(prng, request));
    request.add(Form::Sf(first, second))
}

fn add_clause_of_any_size(prng: &mut Prng, request: &mut Request) -> usize {
    let size = prng.below(4);
    add_clause(prng, request, size)
}

/// A goal at most `size` deep.
pub fn add_goal(prng: &mut Prng, request: &mut Request, size: usize) -> usize {
    if size == 0 {
        return match prng.weigh(&[12, 2, 1, 3]) {
            0 => add_atom(prng, request),
            1 => request.add(Form::Top),
            2 => request.add(Form::Bot),
            _ => add_sf(prng, request),
        };
    }
    let kind = prng.weigh(&[1, 2, 2, 3, 3]);
    if kind == 0 {
        return add_goal(prng, request, 0);
    }
    let right = add_goal(prng, request, size - 1);
    match kind {
        1 | 2 => {
            let left = add_goal(prng, request, size - 1);
            request.add(if kind == 1 { Form::And(left, right) } else { Form::Or(left, right) })
        }
        3 => {
            let said_by = principal(prng, request);
            request.add(Form::Says(said_by, right))
        }
        _ => {
            let left = add_chunk(prng, request, size - 1);
            request.add(Form::Imp(left, right))
        }
    }
}

/// A clause at most `size` deep.
pub fn add_clause(prng: &mut Prng, request: &mut Request, size: usize) -> usize {
    if size == 0 || prng.once_in(5) {
        return if prng.once_in(10) { request.add(Form::Top) } else { add_atom(prng, request) };
    }
    let right = add_clause(prng, request, size - 1);
    match prng.below(3) {
        0 => {
            let left = add_clause(prng, request, size - 1);
            request.add(Form::And(left, right))
        }
        1 => {
            let said_by = principal(prng, request);
            request.add(Form::Says(said_by, right))
        }
        _ => {
            let left = add_goal(prng, request, size - 1);
            request.add(Form::Imp(left, right))
        }
    }
}

/// A chunk at most `size` deep.
pub fn add_chunk(prng: &mut Prng, request: &mut Request, size: usize) -> usize {
    if size == 0 {
        return match prng.weigh(&[6, 3, 1, 1]) {
            0 => add_atom(prng, request),
            1 => add_sf(prng, request),
            2 => request.add(Form::Bot),
            _ => request.add(Form::Top),
        };
    }
    let kind = prng.weigh(&[3, 2, 2, 1]);
    if kind == 0 {
        return add_clause(prng, request, size);
    }
    let left = add_chunk(prng, request, size - 1);
    let right = add_chunk(prng, request, size - 1);
    match kind {
        1 => request.add(Form::And(left, right)),
        2 => request.add(Form::Or(left, right)),
        _ => left,
    }
}
