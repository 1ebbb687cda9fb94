//! The cases that document 01 spells out, with its answers.

use super::{Text, Want};

/// Case P1, whole.
pub const P1: &str = "version=1
principals=2
atoms=1
formulas=5
form=p 0
form=says 0 0
form=imp 1 0
form=sf 1 0
form=says 1 0
clauses=3
clause=2
clause=3
clause=4
goal=0
steps=7
step=use 0
step=to 0
step=hit
step=says
step=use 2
step=to 1
step=hit
";

/// A text from its parts, each a list parted by commas. The goal is the last formula, or the earlier one that it repeats.
pub fn text(forms: &str, policy: &str, steps: &str) -> String {
    let lines = |key: &str, list: &str| -> (usize, String) {
        let items: Vec<&str> = list.split(", ").filter(|item| !item.is_empty()).collect();
        (items.len(), items.iter().map(|item| format!("{key}={item}\n")).collect())
    };
    let (earlier, last) = forms.rsplit_once(", ").unwrap_or(("", forms));
    let (forms, goal) = match earlier.split(", ").position(|form| form == last) {
        Some(number) => (earlier, number),
        None => (forms, forms.split(", ").count() - 1),
    };
    let ((formulas, forms), (clauses, policy)) = (lines("form", forms), lines("clause", policy));
    let (count, steps) = lines("step", steps);
    let head = format!("version=1\nprincipals=3\natoms=3\nformulas={formulas}\n{forms}");
    format!("{head}clauses={clauses}\n{policy}goal={goal}\nsteps={count}\n{steps}")
}

/// A text with its answer.
pub fn case(name: &str, text: impl Into<Vec<u8>>, answer: u8, place: usize, steps: usize) -> Text {
    let want = Some(Want::new(answer, place, steps));
    Text { name: format!("d-{name}"), bytes: text.into(), want }
}

impl Text {
    /// The text with the column that it wants.
    pub fn at_column(self, column: usize) -> Text {
        Text { want: self.want.map(|want| want.at_column(column)), ..self }
    }
}

/// P1 to P12.
pub fn numbered() -> Vec<Text> {
    let says_p0 = "p 0, says 0 0";
    vec![
        case("p01", P1, 0, 0, 7),
        case("p02", P1.replace("sf 1 0", "sf 0 1"), 9, 6, 7),
        case("p03", text("sf 0 0", "", "sf"), 0, 0, 1),
        case("p04", text("p 0, imp 0 0", "", "imp, push, use 0, hit"), 0, 0, 4),
        case("p05", text(says_p0, "0", "says, use 0, hit"), 9, 3, 3),
        case("p06", text("p 0, says 0 0, says 1 1", "1", "says, says, use 0, to 2, hit"), 0, 0, 5),
        case("p07", text("p 0, says 0 0, says 1 1, says 0 0", "2", "says, use 0, to 1"), 9, 3, 3),
        case(
            "p08",
            text("p 0, p 1, or 0 1, or 1 0, imp 2 3", "", "imp, case, push, or2, use 0, hit, push, or1, use 0, hit"),
            0,
            0,
            10,
        ),
        case("p09", text("bot", "", "top"), 7, 1, 1),
        case("p10", text("bot, p 0, imp 0 1", "", "imp, absurd"), 0, 0, 2),
        case("p11", text("sf 0 0", "", "sf, sf"), 11, 2, 2),
        case("p12", P1.replace("steps=7", "steps=6").strip_suffix("step=hit\n").unwrap_or(""), 12, 7, 6),
    ]
}

/// The further cases, as document 02 has them now: its request b) grants `to 2`, its request f) has 64 worlds.
pub fn further() -> Vec<Text> {
    let forms = "p 0, p 1, says 0 1, imp 0 1, says 0 3";
    vec![
        case("further-to-1", text(forms, "2", "says, imp, push, use 0, to 1, hit"), 0, 0, 6),
        case("further-to-2", text(forms, "2", "says, imp, push, use 0, to 2, hit"), 0, 0, 6),
        tower(31, 0, 0),
        tower(32, 0, 0),
        tower(63, 0, 0),
        tower(64, 10, 64),
        case("further-empty", "", 2, 1, 0).at_column(1),
        case("further-cr-lf", P1.replace('\n', "\r\n"), 2, 1, 0).at_column(10),
        case("further-principals-17", P1.replace("principals=2", "principals=17"), 3, 2, 0),
        case("further-imp-2-0", P1.replace("imp 1 0", "imp 2 0"), 4, 7, 0),
        case("further-end", format!("{P1}end"), 6, 23, 0),
        case("further-end-lf", format!("{P1}end\n"), 6, 23, 0),
        case("further-65537", vec![b'v'; 65_537], 1, 0, 0),
    ]
}

/// Goal `top` under nested `says`.
fn tower(height: usize, answer: u8, place: usize) -> Text {
    let forms = (0..height).fold("top".to_string(), |forms, body| format!("{forms}, says 0 {body}"));
    let steps = format!("{}top", "says, ".repeat(height));
    case(&format!("further-says-{height}"), text(&forms, "", &steps), answer, place, height + 1)
}

/// P1 cut after every byte but the last: the line that the cut is in is missing or without LF.
pub fn cuts() -> Vec<Text> {
    let cut = |end: usize| {
        let lines = P1[..end].matches('\n').count();
        let start = P1[..end].rfind('\n').map_or(0, |at| at + 1);
        case(&format!("cut-{end:03}"), &P1[..end], 2, lines + 1, 0).at_column(end - start + 1)
    };
    (0..P1.len()).map(cut).collect()
}
