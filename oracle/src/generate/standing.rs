//! Formulas of every class as policy line, goal, chunk and left part of a clause. The classes here follow document
//! 01 from the top of a formula down, formula by formula, where the reader goes from its parts up.

use super::request::Request;
use super::Text;
use crate::tables::{Form, Step};

/// Whether a formula may stand as a goal.
pub fn is_goal(forms: &[Form], number: usize) -> bool {
    match forms[number] {
        Form::P(_) | Form::Top | Form::Bot | Form::Sf(..) => true,
        Form::And(first, second) | Form::Or(first, second) => is_goal(forms, first) && is_goal(forms, second),
        Form::Says(_, body) => is_goal(forms, body),
        Form::Imp(left, right) => is_chunk(forms, left) && is_goal(forms, right),
    }
}

fn is_clause(forms: &[Form], number: usize) -> bool {
    match forms[number] {
        Form::P(_) | Form::Top => true,
        Form::And(first, second) => is_clause(forms, first) && is_clause(forms, second),
        Form::Says(_, body) => is_clause(forms, body),
        Form::Imp(left, right) => is_goal(forms, left) && is_clause(forms, right),
        _ => false,
    }
}

fn is_chunk(forms: &[Form], number: usize) -> bool {
    is_clause(forms, number)
        || match forms[number] {
            Form::Sf(..) | Form::Bot => true,
            Form::And(first, second) | Form::Or(first, second) => is_chunk(forms, first) && is_chunk(forms, second),
            _ => false,
        }
}

/// The four kinds without parts, each kind over some of these, and a few over those again.
fn bank() -> Request {
    let mut request = Request::new(1, 1);
    let plain = [Form::P(0), Form::Top, Form::Bot, Form::Sf(0, 0)].map(|form| request.add(form));
    for first in plain {
        request.add(Form::Says(0, first));
        for second in [plain[0], plain[2], plain[3]] {
            request.add(Form::And(first, second));
            request.add(Form::Or(first, second));
            request.add(Form::Imp(first, second));
        }
    }
    for number in (5..request.forms.len()).step_by(4) {
        request.add(Form::Says(0, number));
        request.add(Form::Imp(number, 0));
        request.add(Form::Imp(0, number));
        request.add(Form::And(number, number - 1));
        request.add(Form::Or(number, number - 2));
    }
    request
}

/// Every formula of the bank in every place; the one step is `note`, which fits no goal.
pub fn standings() -> Vec<Text> {
    let bank = bank();
    let count = bank.forms.len();
    (0..count).flat_map(|number| standings_of(&bank, number)).collect()
}

fn standings_of(bank: &Request, number: usize) -> Vec<Text> {
    let top = 1;
    let mut texts = Vec::new();
    for place in ["line", "goal", "chunk", "left"] {
        let mut request = bank.clone();
        request.share = false;
        request.steps = vec![Step::Note];
        request.goal = top;
        match place {
            "line" => request.policy = vec![number],
            "goal" => request.goal = number,
            "chunk" => request.goal = request.add(Form::Imp(number, top)),
            _ => request.policy = vec![request.add(Form::Imp(number, top))],
        }
        // The policy line and, without any, the goal stand two lines after the last formula.
        let line = request.forms.len() + 6;
        let fine = match request.policy.first() {
            Some(&line) => is_clause(&request.forms, line) || matches!(request.forms[line], Form::Sf(..)),
            None => is_goal(&request.forms, request.goal),
        };
        let (answer, at) = if fine { (7, 1) } else { (5, line) };
        texts.push(request.wanting(format!("d-{place}-{number:03}"), answer, at));
    }
    texts
}
