//! Requests with steps, formulas, policy lines or bytes changed.

use super::prng::Prng;
use super::request::Request;
use crate::tables::{Form, Step, STEPS};

/// Any step, its number mostly small.
pub fn any_step(prng: &mut Prng) -> Step {
    let number = match prng.below(12) {
        0 => prng.pick(&[31, 32, 63, 64, 127, 128, 255, 256, 65_535]),
        1..=3 => prng.below(70),
        _ => prng.below(6),
    };
    prng.pick(&STEPS).1.with(number)
}

/// One to three steps changed, moved, left out or put in.
pub fn change_steps(prng: &mut Prng, request: &mut Request) {
    for _ in 0..prng.between(1, 3) {
        let steps = &mut request.steps;
        let at = prng.below(steps.len());
        match prng.below(13) {
            0 => steps[at] = any_step(prng),
            1 => steps.insert(at, any_step(prng)),
            2 => steps.push(any_step(prng)),
            3 => steps.insert(at, steps[at]),
            4 if at > 0 => steps.truncate(at),
            5 if at > 0 => steps.swap(at - 1, at),
            6 if steps.len() > 1 => _ = steps.remove(at),
            // A derivation is left in shape by this one, so it is the one that facts decide about.
            _ => nudge_a_number(prng, steps),
        }
    }
}

/// A clause or world number one off, or an `or1` for an `or2`, `left` for `right`.
fn nudge_a_number(prng: &mut Prng, steps: &mut [Step]) {
    let movable = |step: &Step| step.number().is_some() || other_side(*step) != *step;
    let places: Vec<usize> = (0..steps.len()).filter(|&place| movable(&steps[place])).collect();
    if places.is_empty() {
        return;
    }
    let step = &mut steps[prng.pick(&places)];
    *step = match step.number() {
        Some(0) => step.with(1),
        Some(number) if prng.once_in(2) => step.with(number - 1),
        Some(number) => step.with((number + 1).min(65_535)),
        None => other_side(*step),
    };
}

fn other_side(step: Step) -> Step {
    match step {
        Step::Or1 => Step::Or2,
        Step::Or2 => Step::Or1,
        Step::Left => Step::Right,
        Step::Right => Step::Left,
        same => same,
    }
}

/// One or two formulas or policy lines changed, or a formula put in a second time, the steps left as they are.
pub fn change_request(prng: &mut Prng, request: &mut Request) {
    for _ in 0..prng.between(1, 2) {
        match prng.below(9) {
            0 if !request.policy.is_empty() => {
                let at = prng.below(request.policy.len());
                request.policy.remove(at);
            }
            1 if request.policy.len() > 1 => prng.shuffle(&mut request.policy),
            2 => request.policy.push(prng.below(request.forms.len())),
            3 => request.goal = prng.below(request.forms.len() + 1),
            4 => {
                let again = prng.pick(&request.forms);
                match prng.below(3) {
                    0 => request.forms.push(again),
                    _ => *request.forms.last_mut().expect("there are some") = again,
                }
            }
            _ => {
                let at = prng.below(request.forms.len());
                request.forms[at] = changed_form(prng, request.forms[at], request.principals);
            }
        }
    }
}

fn changed_form(prng: &mut Prng, form: Form, principals: usize) -> Form {
    let other = prng.below(principals + 1);
    match form {
        Form::P(atom) => Form::P(if atom == 0 { 1 } else { atom - 1 }),
        Form::Top => prng.pick(&[Form::Bot, Form::P(0)]),
        Form::Bot => prng.pick(&[Form::Top, Form::Sf(0, 0)]),
        Form::And(first, second) => prng.pick(&[Form::Or(first, second), Form::And(second, first)]),
        Form::Or(first, second) => prng.pick(&[Form::And(first, second), Form::Or(second, first)]),
        Form::Imp(left, right) => prng.pick(&[Form::Imp(right, left), Form::And(left, right)]),
        Form::Says(principal, body) => prng.pick(&[Form::Says(other, body), Form::Imp(principal, body)]),
        Form::Sf(first, second) => {
            prng.pick(&[Form::Sf(second, first), Form::Sf(other, second), Form::Sf(first, other)])
        }
    }
}

const BYTES: &[u8] = b"0123456789 =\n\r\tapsorimtndu\0\xff";

/// A few bytes or lines changed.
pub fn change_bytes(prng: &mut Prng, bytes: &mut Vec<u8>) {
    for _ in 0..prng.between(1, 2) {
        if bytes.is_empty() {
            return;
        }
        let at = prng.below(bytes.len());
        match prng.below(10) {
            0 | 1 => bytes[at] = prng.pick(BYTES),
            2 => bytes.insert(at, prng.pick(BYTES)),
            3 => _ = bytes.remove(at),
            4 => bytes.insert(at, bytes[at]),
            5 => bytes.extend_from_slice(prng.pick(&[&b"\n"[..], b" ", b"end\n", b"step=top\n", b"\0"])),
            6 => change_lines(prng, bytes),
            _ => change_digit(prng, bytes),
        }
    }
}

/// A digit for a digit: in shape, and mostly another request.
fn change_digit(prng: &mut Prng, bytes: &mut [u8]) {
    let places: Vec<usize> = (0..bytes.len()).filter(|&at| bytes[at].is_ascii_digit()).collect();
    if !places.is_empty() {
        bytes[prng.pick(&places)] = b'0' + prng.below(10) as u8;
    }
}

fn change_lines(prng: &mut Prng, bytes: &mut Vec<u8>) {
    let mut lines: Vec<&[u8]> = bytes.split_inclusive(|&byte| byte == b'\n').collect();
    let at = prng.below(lines.len());
    let other = prng.below(lines.len());
    match prng.below(3) {
        0 => lines.swap(at, other),
        1 => _ = lines.remove(at),
        _ => lines.insert(at, lines[other]),
    }
    *bytes = lines.concat();
}

/// The file up to a random byte, or up to a random line's end.
pub fn cut_short(prng: &mut Prng, bytes: &mut Vec<u8>) {
    bytes.truncate(prng.below(bytes.len() + 1));
    if prng.once_in(3) {
        let end = bytes.iter().rposition(|&byte| byte == b'\n').map_or(0, |at| at + 1);
        bytes.truncate(end);
    }
}
