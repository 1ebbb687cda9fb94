//! Case P1 with faulty lines, and the refusal that each of them makes.

use super::document::P1;
use super::prng::Prng;
use super::{Text, Want};

/// A line of P1 put in place of line `line`, and the refusal met there.
#[derive(Clone, Debug)]
struct Fault {
    line: usize,
    text: Vec<u8>,
    refusal: u8,
}

/// Every fault alone, pairs of faults, and faults of the file as a whole.
pub fn faults() -> Vec<Text> {
    let all: Vec<Fault> = [number_faults(), range_faults(), form_faults(), step_faults(), class_faults()].concat();
    let mut texts: Vec<Text> = all.iter().enumerate().map(|(index, fault)| with_faults(index, &[fault])).collect();
    let mut prng = Prng::new(1, 0);
    for index in 0..200 {
        let (one, other) = (&all[prng.below(all.len())], &all[prng.below(all.len())]);
        // Which of two formulas makes a later line wrong depends on both, so class faults stay alone.
        if one.line != other.line && one.refusal != 5 && other.refusal != 5 {
            texts.push(with_faults(all.len() + index, &[one, other]));
        }
    }
    texts.extend(whole_files());
    texts
}

fn with_faults(index: usize, faults: &[&Fault]) -> Text {
    let mut lines: Vec<Vec<u8>> = P1.lines().map(|line| line.as_bytes().to_vec()).collect();
    for fault in faults {
        lines[fault.line - 1] = fault.text.clone();
    }
    let first = faults.iter().min_by_key(|fault| fault.line).expect("at least one fault");
    // A class fault is made at a formula's line and met at the policy line or goal that names it.
    let place = if first.refusal == 5 { class_place(first.line) } else { first.line };
    let bytes = lines.into_iter().flat_map(|line| [line, vec![b'\n']].concat()).collect();
    Text { name: format!("d-fault-{index:04}"), bytes, want: Some(Want::new(first.refusal, place, 0)) }
}

/// P1's lines that hold one number, with their keys.
const NUMBERS: [(usize, &str); 9] = [
    (1, "version"),
    (2, "principals"),
    (3, "atoms"),
    (4, "formulas"),
    (10, "clauses"),
    (11, "clause"),
    (13, "clause"),
    (14, "goal"),
    (15, "steps"),
];

/// Values out of shape, with `K` for the key and `k` for the key in capitals.
const SHAPES: &str = "|K|K=|K= 1|K=1 |K=01|K=00|K=000001|K=100000|K=+1|K=-1|K=1x|K=x|K=1\r|K=1\t| K=1|K =1|K==1|\
    K=1=1|K=1 1|K=1\0|K=\u{b2}|KK=1|K:1|other=1|k=1";

fn number_faults() -> Vec<Fault> {
    let mut faults = Vec::new();
    for (line, key) in NUMBERS {
        for shape in SHAPES.split('|') {
            let text = match shape {
                "other=1" => shape.to_string(),
                _ => shape.replace('K', key).replace("k=1", &format!("{}=1", key.to_uppercase())),
            };
            faults.push(Fault { line, text: text.into_bytes(), refusal: 2 });
        }
    }
    faults
}

fn range_faults() -> Vec<Fault> {
    let ranges: [(usize, &str, &[usize]); 9] = [
        (1, "version", &[0, 3, 10, 65_537, 99_999]),
        (2, "principals", &[0, 17, 65_538, 99_999]),
        (3, "atoms", &[0, 257, 65_537, 99_999]),
        (4, "formulas", &[0, 1_025, 65_541, 99_999]),
        (10, "clauses", &[129, 65_539, 99_999]),
        (11, "clause", &[5, 6, 65_538, 99_999]),
        (13, "clause", &[5, 1_024, 65_540, 99_999]),
        (14, "goal", &[5, 1_024, 65_536, 99_999]),
        (15, "steps", &[0, 2_049, 65_543, 99_999]),
    ];
    let fault = |line: usize, key: &str, number: usize| {
        let text = format!("{key}={number}").into_bytes();
        Fault { line, text, refusal: 3 }
    };
    ranges.iter().flat_map(|(line, key, numbers)| numbers.iter().map(|number| fault(*line, key, *number))).collect()
}

/// Faults at line 6, formula 1, where P1 has `says 0 0`.
fn form_faults() -> Vec<Fault> {
    let shape = "|top 0|bot 1|p|p 0 0|and 0|and 0 0 0|And 0 0|nand 0 0|top | top|p  0|p 00|p 0 |imp 0|or 0|says 0|\
        says 0 0 0|sf 0|sf 0 0 0|P 0|0|0 0 0|p 100000|says 0 100000|says 100000 0|sf 0 00|says 00 0|and 0\t0|\
        and,0,0|use 0";
    let range = "p 1|p 65536|p 99999|says 2 0|says 65536 0|says 99 99|says 2 1|sf 2 0|sf 0 2|sf 65536 65536|sf 99999 0";
    let later =
        "says 0 1|says 0 2|says 0 65536|says 0 99999|and 0 1|and 1 0|imp 5 5|or 65536 0|or 0 65537|imp 99999 99999";
    let list = |texts: &str, refusal: u8| -> Vec<Fault> {
        let fault = |text: &str| Fault { line: 6, text: format!("form={text}").into_bytes(), refusal };
        texts.split('|').map(fault).collect()
    };
    [list(shape, 2), list(range, 3), list(later, 4)].concat()
}

/// Faults at line 17 of the kind that steps have.
fn step_faults() -> Vec<Fault> {
    let shape = "|use|to|use 0 0|hit 0|top 1|use  0|use 00|to 01|use 0 | use 0|USE 0|usee 0|us 0|or|or3|0|form|use -1|\
        use 100000|to 999999|use x|and 0 0|p 0|bot|use\t0|to0";
    let list = |texts: &str, refusal: u8| -> Vec<Fault> {
        let fault = |text: &str| Fault { line: 17, text: format!("step={text}").into_bytes(), refusal };
        texts.split('|').map(fault).collect()
    };
    [list(shape, 2), list("use 65536|use 65537|to 65536|to 65537|use 99999|to 99999", 3)].concat()
}

/// Formulas that put P1's policy lines out of class: line 7 is named by `clause=2`, lines 8 and 9 by the next two.
fn class_faults() -> Vec<Fault> {
    let fault = |line: usize| {
        ["bot", "or 0 0"].map(|form| Fault { line, text: format!("form={form}").into_bytes(), refusal: 5 })
    };
    [7, 8, 9].into_iter().flat_map(fault).collect()
}

/// The policy line of P1 that names the formula of a line.
fn class_place(form_line: usize) -> usize {
    form_line + 4
}

fn whole_files() -> Vec<Text> {
    let text = |name: &str, bytes: Vec<u8>, answer: u8, place: usize| Text {
        name: format!("d-whole-{name}"),
        bytes,
        want: Some(Want::new(answer, place, 0)),
    };
    let p1 = P1.as_bytes();
    let with = |from: &str, to: &str| P1.replacen(from, to, 1).into_bytes();
    vec![
        text("no-last-lf", p1[..p1.len() - 1].to_vec(), 2, 22),
        text("lf", b"\n".to_vec(), 2, 1),
        text("lf-after", [p1, b"\n"].concat(), 6, 23),
        text("space-after", [p1, b" "].concat(), 6, 23),
        text("zero-after", [p1, b"\0"].concat(), 6, 23),
        text("twice", p1.repeat(2), 6, 23),
        text("lf-before", [b"\n", p1].concat(), 2, 1),
        text("mark-before", [b"\xef\xbb\xbf", p1].concat(), 2, 1),
        text("cr", with("step=hit\n", "step=hit\r\n"), 2, 18),
        text("formulas-4", with("formulas=5", "formulas=4"), 2, 9),
        text("formulas-6", with("formulas=5", "formulas=6"), 2, 10),
        text("clauses-2", with("clauses=3", "clauses=2"), 2, 13),
        text("clauses-4", with("clauses=3", "clauses=4"), 2, 14),
        text("steps-6", with("steps=7", "steps=6"), 6, 22),
        text("steps-8", with("steps=7", "steps=8"), 2, 23),
        text("no-goal", with("goal=0\n", ""), 2, 14),
        text("two-goals", with("goal=0\n", "goal=0\ngoal=0\n"), 2, 15),
    ]
}
