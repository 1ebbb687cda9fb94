//! Version 2 of the file, with either logic: document 01's cases once more, the lines that are new, and what only the unit law grants.

use super::document::{case, cuts, numbered, text, P1};
use super::faults::faults;
use super::Text;
use crate::answers::is_unread;
use crate::tables::{Logic, LOGICS};

pub fn logics() -> Vec<Text> {
    let some_faults = faults().into_iter().step_by(9).filter_map(|text| in_version_2(&text, Logic::Plain));
    [numbered_again(), versions(), logic_lines(), some_faults.collect(), cut_again(), by_unit()].concat()
}

/// A text of version 1 in version 2, with the answer that it has there if the logic is plain: lines are one higher.
pub fn in_version_2(text: &Text, logic: Logic) -> Option<Text> {
    let rest = text.bytes.strip_prefix(b"version=1\n")?;
    let head = format!("version=2\nlogic={}\n", logic.word());
    let want = text.want.map(|mut want| {
        want.place += usize::from(is_unread(want.answer) && want.place > 0);
        want
    });
    Some(Text { name: format!("{}-{}", text.name, logic.word()), bytes: [head.as_bytes(), rest].concat(), want })
}

/// P1 to P12: only P5 is another matter with the unit law.
fn numbered_again() -> Vec<Text> {
    let again = |text: &Text| {
        LOGICS.map(|(_, logic)| {
            let twin = in_version_2(text, logic).expect("they begin so");
            let granted = logic == Logic::Unit && text.name == "d-p05";
            if granted {
                case("p05-unit", twin.bytes, 0, 0, 3)
            } else {
                twin
            }
        })
    };
    numbered().iter().flat_map(again).collect()
}

/// The version's own line.
fn versions() -> Vec<Text> {
    let with = |version: &str, answer: u8, place: usize| {
        let name = format!("version-{version}").replace(['=', '\n'], "-");
        case(&name, P1.replacen("version=1", &format!("version={version}"), 1), answer, place, 0)
    };
    let mut texts: Vec<Text> =
        ["0", "3", "10", "11", "12", "65537", "65538", "99999"].map(|version| with(version, 3, 1)).to_vec();
    // In version 2 the second line is another.
    texts.push(with("2", 2, 2).at_column(1));
    texts.push(with("02", 2, 1).at_column(10));
    texts.push(with("1\nlogic=plain", 2, 2).at_column(1));
    texts.push(with("1\nlogic=unit", 2, 2).at_column(1));
    texts.push(with("3\nlogic=unit", 3, 1));
    texts.push(with("0\nlogic=plain", 3, 1));
    texts
}

/// What may stand after `version=2`, with the column of the first byte that cannot; the LF is added.
const LINES: [(&str, usize); 26] = [
    ("", 1),
    ("principals=2", 1),
    ("Logic=unit", 1),
    ("logi", 5),
    ("logic", 6),
    ("logic unit", 6),
    ("logic=", 7),
    ("logic= unit", 7),
    ("logic=0", 7),
    ("logic=Unit", 7),
    ("logic=both", 7),
    ("logic=p", 8),
    ("logic=pnit", 8),
    ("logic=pu", 8),
    ("logic=plai", 11),
    ("logic=plain ", 12),
    ("logic=plain\r", 12),
    ("logic=plainunit", 12),
    ("logic=plain 0", 12),
    ("logic=u", 8),
    ("logic=ul", 8),
    ("logic=uni", 10),
    ("logic=unis", 10),
    ("logic=unit1", 11),
    ("logic=unit\0", 11),
    ("logics=unit", 6),
];

fn logic_lines() -> Vec<Text> {
    let rest = P1.strip_prefix("version=1\n").expect("it begins so");
    let make = |(index, (line, column)): (usize, (&str, usize))| {
        let whole = case(&format!("logic-{index:02}"), format!("version=2\n{line}\n{rest}"), 2, 2, 0);
        let cut = case(&format!("logic-{index:02}-cut"), format!("version=2\n{line}"), 2, 2, 0);
        [whole.at_column(column), cut.at_column(column.min(line.len() + 1))]
    };
    LINES.into_iter().enumerate().flat_map(make).collect()
}

/// P1 with either logic, cut within its first lines.
fn cut_again() -> Vec<Text> {
    let first = |text: &Text| text.bytes.len() > 9 && text.bytes.len() < 40;
    let of = |logic: Logic| cuts().into_iter().filter(first).filter_map(move |text| in_version_2(&text, logic));
    let mut texts: Vec<Text> = LOGICS.into_iter().flat_map(|(_, logic)| of(logic)).collect();
    for end in 0.."version=2\nlogic=unit\n".len() {
        let lines = if end < 10 { 0 } else { 1 };
        let cut = case(&format!("logic-cut-{end:02}"), &b"version=2\nlogic=unit\n"[..end], 2, lines + 1, 0);
        texts.push(cut.at_column(end - 10 * lines + 1));
    }
    texts
}

/// Name, formulas, policy, steps; answer and place with plain, then with unit. The goal is the last formula, or the earlier one that
/// it repeats.
type Both = (&'static str, &'static str, &'static str, &'static str, (u8, usize), (u8, usize));

const BOTH: [Both; 16] = [
    ("said", "p 0, says 0 0", "0", "says, use 0, hit", (9, 3), (0, 0)),
    ("said-twice", "p 0, says 0 0, says 1 1", "0", "says, says, use 0, hit", (9, 4), (0, 0)),
    ("said-by-another", "p 0, says 0 0, says 1 0", "1", "says, use 0, to 1", (9, 3), (9, 3)),
    ("not-said", "p 0, says 0 0, p 0", "1", "use 0, to 0", (9, 2), (9, 2)),
    ("above-is-not-said", "p 0, says 0 0, top, imp 2 0", "1", "imp, drop, use 0, to 1", (9, 4), (9, 4)),
    ("pushed", "p 0, says 0 0, imp 0 1", "", "imp, push, says, use 0, hit", (9, 5), (0, 0)),
    ("imp-there", "p 0, p 1, imp 1 0, says 0 0", "2, 1", "says, use 0, to 1, hit, use 1, hit", (9, 3), (0, 0)),
    ("imp-here", "p 0, p 1, imp 1 0, says 0 0", "2, 1", "says, use 0, to 0, hit, use 1, hit", (9, 4), (0, 0)),
    // With the wider rule 6 and the tenth, what A says is said by A in what B says.
    ("both-rules", "p 0, says 0 0, says 1 0, says 0 2", "1", "says, says, use 0, to 2, hit", (9, 4), (0, 0)),
    ("both-rules-hit", "p 0, says 0 0, says 1 0, says 0 2", "1", "says, says, use 0, to 1, hit", (9, 5), (0, 0)),
    ("other-order", "p 0, says 0 0, says 1 1", "1", "says, says, use 0, to 2, hit", (0, 0), (0, 0)),
    ("other-order-first", "p 0, says 0 0, says 1 1", "1", "says, says, use 0, to 1", (9, 4), (9, 4)),
    // The worlds of the first part are gone in the second.
    ("and-gone", "p 0, says 0 0, and 1 0", "1", "and, says, use 0, to 1, hit, use 0, to 1", (8, 7), (8, 7)),
    ("sf-there", "sf 0 1, says 2 0, imp 0 1", "", "imp, note, says, sf", (0, 0), (0, 0)),
    ("sf-not-back", "sf 0 1, p 0, imp 0 1, says 0 2", "2", "says, imp, note, use 0, to 1, hit, sf", (9, 5), (9, 7)),
    (
        "child-of-older",
        "p 0, p 1, says 0 0, imp 2 1, imp 0 1",
        "3",
        "imp, push, use 0, to 0, hit, says, use 1, hit",
        (9, 8),
        (9, 8),
    ),
];

fn by_unit() -> Vec<Text> {
    let make = |(name, forms, policy, steps, plain, unit): Both| {
        let file = text(forms, policy, steps);
        let count = steps.split(", ").count();
        [
            ("1", "version=1\n", plain),
            ("plain", "version=2\nlogic=plain\n", plain),
            ("unit", "version=2\nlogic=unit\n", unit),
        ]
        .map(|(logic, head, (answer, place))| {
            case(&format!("unit-{name}-{logic}"), file.replacen("version=1\n", head, 1), answer, place, count)
        })
    };
    BOTH.into_iter().flat_map(make).collect()
}
