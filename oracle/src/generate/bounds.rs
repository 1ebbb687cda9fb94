//! The limits, each from both sides, with the answers that follow from how the requests are made.

use super::document::P1;
use super::request::Request;
use super::{Text, Want};
use crate::limits;
use crate::tables::{Form, Step};

/// Every limit case.
pub fn bounds() -> Vec<Text> {
    [
        worlds(),
        far_facts(),
        clauses(),
        open(),
        orders(),
        chunks(),
        step_counts(),
        formulas(),
        policy_lines(),
        names(),
        numbers(),
        files(),
    ]
    .concat()
}

/// A text whose answer is 0, or 10 at `place` if it is past the limit.
fn limited(request: &Request, name: String, over: bool, place: usize) -> Text {
    if over {
        request.wanting(name, 10, place)
    } else {
        request.wanting(name, 0, 0)
    }
}

/// The first formula, then as many more as `count`, each made from the one before.
fn chain(request: &mut Request, first: Form, count: usize, next: impl Fn(usize) -> Form) -> usize {
    request.share = false;
    let first = request.add(first);
    (0..count).fold(first, |last, _| request.add(next(last)))
}

fn worlds() -> Vec<Text> {
    let mut texts = Vec::new();
    // The first three heights were about the limit before request f).
    for height in [31, 32, 33, limits::WORLDS - 2, limits::WORLDS - 1, limits::WORLDS, limits::WORLDS + 1] {
        let over = height >= limits::WORLDS;
        let mut says = Request::new(1, 1);
        says.goal = chain(&mut says, Form::Top, height, |body| Form::Says(0, body));
        says.steps = [vec![Step::Says; height], vec![Step::Top]].concat();
        texts.push(limited(&says, format!("d-worlds-says-{height}"), over, limits::WORLDS));
        let mut imp = Request::new(1, 1);
        imp.goal = chain(&mut imp, Form::Top, height, |right| Form::Imp(0, right));
        imp.steps = [[Step::Imp, Step::Drop].repeat(height), vec![Step::Top]].concat();
        texts.push(limited(&imp, format!("d-worlds-imp-{height}"), over, 2 * limits::WORLDS - 1));
        // Both parts of an `and` have the whole number of worlds to themselves.
        let mut twice = says.clone();
        twice.goal = twice.add(Form::And(says.goal, says.goal));
        twice.steps = [vec![Step::And], says.steps.repeat(2)].concat();
        texts.push(limited(&twice, format!("d-worlds-twice-{height}"), over, limits::WORLDS + 1));
    }
    texts
}

/// Facts between the root and a far world, there and absent: a row that is too narrow, or that counts from 0 again, tells.
fn far_facts() -> Vec<Text> {
    let mut texts = Vec::new();
    for far in [31, 32, 33, limits::WORLDS - 1] {
        let mut said = Request::new(2, 1);
        let atom = said.add(Form::P(0));
        said.policy = vec![said.add(Form::Says(0, atom)), atom];
        said.goal = (0..far).fold(atom, |body, _| said.add(Form::Says(0, body)));
        let with = |name: &str, steps: &[Step], answer: u8| {
            let mut request = said.clone();
            request.steps = [&vec![Step::Says; far], steps].concat();
            let place = if answer == 0 { 0 } else { request.steps.len() };
            request.wanting(format!("d-far-{name}-{far}"), answer, place)
        };
        texts.push(with("said", &[Step::Use(0), Step::To(far), Step::Hit], 0));
        texts.push(with("said-elsewhere", &[Step::Use(0), Step::To(far - 1), Step::Hit], 9));
        texts.push(with("not-above", &[Step::Use(1), Step::Hit], 9));
        texts.push(with("no-world", &[Step::Use(0), Step::To(far + 1)], 8));
        let mut above = Request::new(1, 1);
        let (top, atom) = (above.add(Form::Top), above.add(Form::P(0)));
        above.policy = vec![atom];
        above.goal = (0..far).fold(atom, |right, _| above.add(Form::Imp(top, right)));
        above.steps = [[Step::Imp, Step::Drop].repeat(far), vec![Step::Use(0), Step::Hit]].concat();
        texts.push(above.wanting(format!("d-far-above-{far}"), 0, 0));
        for (a, b) in [(0, 1), (1, 0)] {
            let mut speaks = Request::new(2, 1);
            speaks.policy = vec![speaks.add(Form::Sf(0, 1))];
            let asked = speaks.add(Form::Sf(a, b));
            speaks.goal = (0..far).fold(asked, |body, _| speaks.add(Form::Says(1, body)));
            speaks.steps = [vec![Step::Says; far], vec![Step::Sf]].concat();
            let (answer, place) = if a == 0 { (0, 0) } else { (9, far + 1) };
            texts.push(speaks.wanting(format!("d-far-sf-{a}-{b}-{far}"), answer, place));
        }
    }
    texts
}

fn clauses() -> Vec<Text> {
    let mut texts = Vec::new();
    for (lines, line) in
        [(0, Form::P(0)), (1, Form::Sf(0, 0)), (127, Form::P(0)), (128, Form::P(0)), (128, Form::Sf(0, 0))]
    {
        for all in [255, 256, 257] {
            let pushes: usize = all - lines;
            let mut request = Request::new(1, 2);
            request.share = false;
            let line = request.add(line);
            request.policy = vec![line; lines];
            let atom = request.add(Form::P(1));
            let chunk = (1..pushes).fold(atom, |rest, _| request.add(Form::And(atom, rest)));
            request.goal = request.add(Form::Imp(chunk, atom));
            request.steps = vec![Step::Imp];
            request.steps.extend([Step::Split, Step::Push].repeat(pushes - 1));
            request.steps.extend([Step::Push, Step::Use(all - 1), Step::Hit]);
            let kind = request.forms[line].entry()[0];
            let name = format!("d-clauses-{lines}-{kind}-{all}");
            texts.push(limited(&request, name, all > limits::CLAUSES, 2 * pushes));
        }
    }
    texts
}

fn open() -> Vec<Text> {
    let mut texts = Vec::new();
    for count in [254, 255, 256, 257] {
        let over = count > 255;
        let mut and = Request::new(1, 1);
        and.goal = chain(&mut and, Form::Top, count, |left| Form::And(left, 0));
        and.steps = [vec![Step::And; count], vec![Step::Top; count + 1]].concat();
        texts.push(limited(&and, format!("d-open-and-{count}"), over, 256));
        let mut case = Request::new(1, 1);
        let chunk = chain(&mut case, Form::Top, count, |left| Form::Or(left, 0));
        case.goal = case.add(Form::Imp(chunk, 0));
        case.steps = [vec![Step::Imp], vec![Step::Case; count], [Step::Drop, Step::Top].repeat(count + 1)].concat();
        texts.push(limited(&case, format!("d-open-case-{count}"), over, 257));
        let (to, _) = mixed(0, 0, count);
        texts.push(limited(&to, format!("d-open-to-{count}"), over, 257));
    }
    for (ands, cases, tos) in [(100, 0, 155), (100, 0, 156), (152, 3, 100), (153, 3, 100), (250, 5, 0), (249, 7, 0)] {
        let (request, place) = mixed(ands, cases, tos);
        let name = format!("d-open-mixed-{ands}-{cases}-{tos}");
        texts.push(limited(&request, name, ands + cases + tos > 255, place));
    }
    texts
}

/// `and`, then `case`, then `to` so many times, and all that is then left to close. With it the place of the last
/// of these steps that opens an obligation.
fn mixed(ands: usize, cases: usize, tos: usize) -> (Request, usize) {
    let mut request = Request::new(1, 1);
    request.share = false;
    let (top, atom) = (request.add(Form::Top), request.add(Form::P(0)));
    let clause = (0..tos).fold(atom, |right, _| request.add(Form::Imp(top, right)));
    request.policy = vec![clause];
    let chunk = (0..cases).fold(top, |left, _| request.add(Form::Or(left, top)));
    let inner = if cases > 0 { request.add(Form::Imp(chunk, atom)) } else { atom };
    request.goal = (0..ands).fold(inner, |left, _| request.add(Form::And(left, top)));
    let use_it = [vec![Step::Use(0)], vec![Step::To(0); tos], vec![Step::Hit], vec![Step::Top; tos]].concat();
    request.steps = vec![Step::And; ands];
    let branch = if cases > 0 { [vec![Step::Drop], use_it].concat() } else { use_it };
    if cases > 0 {
        request.steps.push(Step::Imp);
        request.steps.extend(vec![Step::Case; cases]);
    }
    let opened = request.steps.len();
    let place = if tos > 0 { opened + 1 + usize::from(cases > 0) + tos } else { opened };
    request.steps.extend(branch.repeat(cases + 1));
    request.steps.extend(vec![Step::Top; ands]);
    (request, place)
}

/// At a limit, refusals 7, 8 and 9 come before 10.
fn orders() -> Vec<Text> {
    let (mut request, place) = mixed(100, 0, 156);
    request.share = true;
    let top = request.add(Form::Top);
    // One world more, so that a world can be there without being above the clause's last one.
    request.goal = request.add(Form::Imp(top, request.goal));
    request.steps.splice(0..0, [Step::Imp, Step::Drop]);
    let place = place + 2;
    let with = |earlier: usize, last: Step, answer: u8| {
        let mut request = request.clone();
        request.steps[place - 2] = Step::To(earlier);
        request.steps[place - 1] = last;
        request.wanting(format!("d-order-{answer}-{}", last.entry()[0]), answer, place)
    };
    let mut texts = vec![
        with(0, Step::To(0), 10),
        with(1, Step::To(2), 8),
        with(1, Step::To(0), 9),
        with(0, Step::Hit, 7),
        with(0, Step::And, 7),
    ];
    let mut tower = Request::new(1, 1);
    let height = limits::WORLDS - 1;
    tower.goal = chain(&mut tower, Form::Top, height, |body| Form::Says(0, body));
    tower.steps = [vec![Step::Says; height], vec![Step::Imp]].concat();
    texts.push(tower.wanting("d-order-7-worlds", 7, limits::WORLDS));
    texts
}

fn chunks() -> Vec<Text> {
    let make = |splits: usize| {
        let mut request = Request::new(1, 1);
        let chunk = chain(&mut request, Form::Top, splits, |left| Form::And(left, 0));
        request.goal = request.add(Form::Imp(chunk, 0));
        request.steps =
            [vec![Step::Imp], vec![Step::Split; splits], vec![Step::Drop; splits + 1], vec![Step::Top]].concat();
        limited(&request, format!("d-chunks-{}", splits + 1), splits > 15, 17)
    };
    [14, 15, 16, 17].map(make).to_vec()
}

/// A tree of `and` with 1,024 leaves takes 2,047 steps; each `or` on top of it takes one more.
fn step_counts() -> Vec<Text> {
    let make = |ors: usize| {
        let mut request = Request::new(1, 1);
        let tree = chain(&mut request, Form::Top, 10, |part| Form::And(part, part));
        request.goal = (0..ors).fold(tree, |part, _| request.add(Form::Or(part, part)));
        request.steps = [vec![Step::Or2; ors], tree_steps(10)].concat();
        let name = format!("d-steps-{}", 2_047 + ors);
        let line = 7 + request.forms.len();
        if ors > 1 {
            request.wanting(name, 3, line)
        } else {
            request.wanting(name, 0, 0)
        }
    };
    [0, 1, 2].map(make).to_vec()
}

fn tree_steps(height: usize) -> Vec<Step> {
    match height {
        0 => vec![Step::Top],
        _ => [vec![Step::And], tree_steps(height - 1).repeat(2)].concat(),
    }
}

/// Each formula doubles the one before; only a class worked out once for each is quick enough.
fn formulas() -> Vec<Text> {
    let make = |count: usize| {
        let mut request = Request::new(1, 1);
        request.goal = chain(&mut request, Form::Top, count - 1, |part| Form::Or(part, part));
        request.steps = [vec![Step::Or1; count - 1], vec![Step::Top]].concat();
        let name = format!("d-formulas-{count}");
        if count > limits::FORMULAS {
            request.wanting(name, 3, 4)
        } else {
            request.wanting(name, 0, 0)
        }
    };
    [1, 2, 1_023, 1_024, 1_025].map(make).to_vec()
}

fn policy_lines() -> Vec<Text> {
    let mut texts = Vec::new();
    for lines in [1, 127, 128, 129] {
        for number in [lines - 1, lines] {
            let mut request = Request::new(1, 1);
            request.goal = request.add(Form::P(0));
            request.policy = vec![0; lines];
            request.steps = vec![Step::Use(number), Step::Hit];
            let (answer, place) = match (lines > limits::LINES, number == lines) {
                (true, _) => (3, 6),
                (_, true) => (8, 1),
                _ => (0, 0),
            };
            texts.push(request.wanting(format!("d-lines-{lines}-use-{number}"), answer, place));
        }
    }
    texts
}

/// Counts of principals and atoms, with the last of them named.
fn names() -> Vec<Text> {
    let mut texts = Vec::new();
    for count in [0usize, 1, 2, 15, 16, 17, 65_537, 99_999] {
        let last = count.saturating_sub(1);
        let mut request = Request::new(count, 1);
        request.goal = request.add(Form::Sf(last, last));
        request.steps = vec![Step::Sf];
        let (answer, place) = if (1..=16).contains(&count) { (0, 0) } else { (3, 2) };
        texts.push(request.wanting(format!("d-principals-{count}"), answer, place));
    }
    for count in [0usize, 1, 255, 256, 257, 65_537, 99_999] {
        let mut request = Request::new(1, count);
        request.goal = request.add(Form::P(count.saturating_sub(1)));
        request.policy = vec![0];
        request.steps = vec![Step::Use(0), Step::Hit];
        let (answer, place) = if (1..=256).contains(&count) { (0, 0) } else { (3, 3) };
        texts.push(request.wanting(format!("d-atoms-{count}"), answer, place));
    }
    texts
}

/// Clause and world numbers as large as they get; 65,536 and 65,537 would be 0 and 1 in 16 bits.
fn numbers() -> Vec<Text> {
    let mut texts = Vec::new();
    for number in [255, 256, 65_535, 65_536, 65_537, 99_999, 100_000] {
        let (answer, of_use, of_to) = match number {
            100_000.. => (2, 16, 17),
            65_536.. => (3, 16, 17),
            _ => (8, 1, 2),
        };
        let steps = if answer == 8 { 7 } else { 0 };
        let text = |word: &str, place: usize| Text {
            name: format!("d-{word}-{number}"),
            bytes: P1.replacen(&format!("{word} 0"), &format!("{word} {number}"), 1).into_bytes(),
            want: Some(Want::new(answer, place, steps)),
        };
        texts.extend([text("use", of_use), text("to", of_to)]);
    }
    texts
}

/// Files about as long as they may be.
fn files() -> Vec<Text> {
    let text = |name: &str, bytes: Vec<u8>, answer: u8, place: usize| Text {
        name: format!("d-file-{name}-{}", bytes.len()),
        bytes,
        want: Some(Want::new(answer, place, 0)),
    };
    let mut texts = Vec::new();
    for length in [limits::FILE - 1, limits::FILE, limits::FILE + 1, limits::FILE + 2, 2 * limits::FILE] {
        let over = length > limits::FILE;
        let mut padded = P1.as_bytes().to_vec();
        padded.resize(length, b'\n');
        texts.push(text("padded", padded, if over { 1 } else { 6 }, if over { 0 } else { 23 }));
        texts.push(text("zeros", vec![0; length], if over { 1 } else { 2 }, if over { 0 } else { 1 }));
    }
    texts
}
