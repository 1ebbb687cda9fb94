//! The column of refusal 2: lines that go wrong at each kind of byte, with the column that follows from the document's words.

use super::document::{case, P1};
use super::Text;

pub fn columns() -> Vec<Text> {
    [lines(), cut_lines(), foreign(), changed()].concat()
}

/// P1 with one of its lines changed: the line, what stands there, the column of the first byte that cannot. The LF is added.
const LINES: [(usize, &str, usize); 84] = [
    (1, "", 1),
    (1, "Version=1", 1),
    (1, "version", 8),
    (1, "version=", 9),
    (1, "version=1\r", 10),
    (1, "version=01", 10),
    (1, "version=00", 10),
    (1, "version=1 ", 10),
    (1, "version= 1", 9),
    (1, "version=-1", 9),
    (1, "version=123456", 14),
    (1, "versio=1", 7),
    (1, "versionx1", 8),
    (1, "\0", 1),
    (2, "principals=", 12),
    (2, "principals=99999x", 17),
    (2, "principals=100000", 17),
    (2, "principals=2:", 13),
    (2, "principals=/", 12),
    (2, "logic=plain", 1),
    (2, "principal=2", 10),
    (3, "atoms=1\t", 8),
    (3, "atom=1", 5),
    (4, "formulas=5.", 11),
    (4, "form=p 0", 5),
    (5, "form=", 6),
    (5, "form= p 0", 6),
    (5, "form=p", 7),
    (5, "form=p ", 8),
    (5, "form=p  0", 8),
    (5, "form=p 0 0", 9),
    (5, "form=p 00", 9),
    (5, "form=p 0 ", 9),
    (5, "form=p0", 7),
    (5, "form=px", 7),
    (5, "form=push", 7),
    (5, "form=q", 6),
    (5, "form=or1", 8),
    (5, "form=to", 8),
    (5, "form=top 0", 9),
    (5, "form=topx", 9),
    (5, "form=b", 7),
    (5, "form=and 1", 11),
    (5, "form=and 0 0 0", 13),
    (5, "form=an 0 0", 8),
    (5, "form=imp 99999 99999x", 21),
    (5, "form=imp 999999 0", 15),
    (5, "form=says 0", 12),
    (5, "form=s 0", 7),
    (5, "form=sf,0", 8),
    (5, "form=SF 0 0", 6),
    (5, "from=p 0", 2),
    (5, "form=says 99999 99999 ", 22),
    (10, "clause=3", 7),
    (10, "clauses=", 9),
    (10, "goal=0", 1),
    (11, "clauses=2", 7),
    (11, "clause=", 8),
    (11, "clause=2 3", 9),
    (12, "goal=0", 1),
    (14, "goal=x", 6),
    (14, "clause=0", 1),
    (15, "step=7", 5),
    (15, "steps=+7", 7),
    (16, "steps=7", 5),
    (16, "step=", 6),
    (16, "step=or", 8),
    (16, "step=or3", 8),
    (16, "step=or1 ", 9),
    (16, "step=to", 8),
    (16, "step=to ", 9),
    (16, "step=to0", 8),
    (16, "step=top 0", 9),
    (16, "step=use", 9),
    (16, "step=use 1 ", 11),
    (16, "step=use 1 1", 11),
    (16, "step=use 01", 11),
    (16, "step=p", 7),
    (16, "step=bot", 6),
    (16, "step=spl", 9),
    (16, "step=sa 0", 8),
    (16, "step=split 0", 11),
    (16, "step=use 123456", 15),
    (16, "step=hit\r", 9),
];

fn lines() -> Vec<Text> {
    let make = |(index, (line, text, column)): (usize, (usize, &str, usize))| {
        let file: String =
            (1..).zip(P1.lines()).map(|(at, there)| [if at == line { text } else { there }, "\n"].concat()).collect();
        case(&format!("column-{index:02}-line-{line}"), file, 2, line, 0).at_column(column)
    };
    LINES.into_iter().enumerate().map(make).collect()
}

/// The same lines where the file ends before the LF: the byte that cannot stand comes first, else the file's end does.
fn cut_lines() -> Vec<Text> {
    let make = |(index, (line, text, column)): (usize, (usize, &str, usize))| {
        let before: String = P1.split_inclusive('\n').take(line - 1).collect();
        let name = format!("column-{index:02}-line-{line}-cut");
        case(&name, before + text, 2, line, 0).at_column(column.min(text.len() + 1))
    };
    LINES.into_iter().enumerate().map(make).collect()
}

/// A request that reads, with every kind of line, formula and step.
const EVERY_LINE: &str = "version=2
logic=unit
principals=16
atoms=100
formulas=14
form=p 99
form=p 98
form=p 97
form=p 96
form=p 95
form=p 94
form=p 93
form=top
form=bot
form=and 7 6
form=or 8 9
form=imp 10 7
form=says 15 11
form=sf 15 10
clauses=2
clause=13
clause=11
goal=12
steps=18
step=and
step=or1
step=or2
step=imp
step=says
step=top
step=sf
step=use 12345
step=left
step=right
step=to 63
step=hit
step=push
step=split
step=case
step=absurd
step=drop
step=note
";

/// Bytes that stand in no line of any shape: control bytes, those over 127, capitals, and what lies beside the digits.
const FOREIGN: [u8; 9] = [0, b'\r', 0x7f, 0x80, 0xff, b'Q', b'-', b'/', b':'];

/// That request with each of its bytes in turn, an LF too, another one that stands in no line: the column is that byte's.
fn foreign() -> Vec<Text> {
    let make = |at: usize| {
        let before = &EVERY_LINE[..at];
        let (line, start) = (before.matches('\n').count() + 1, before.rfind('\n').map_or(0, |lf| lf + 1));
        let mut file = EVERY_LINE.as_bytes().to_vec();
        file[at] = FOREIGN[at % FOREIGN.len()];
        case(&format!("foreign-{at:03}"), file, 2, line, 0).at_column(at - start + 1)
    };
    (0..EVERY_LINE.len()).map(make).collect()
}

/// P1 with each of its bytes another one, left out, or doubled, in turn; what comes of it is not known beforehand.
fn changed() -> Vec<Text> {
    let make = |at: usize| {
        let mut bytes = P1.as_bytes().to_vec();
        match at % 8 {
            0 => _ = bytes.remove(at),
            1 => bytes.insert(at, bytes[at]),
            2 => bytes[at] = b'\n',
            3 => bytes[at] = b' ',
            4 => bytes[at] = b'0',
            5 => bytes[at] = 0,
            6 => bytes[at] = bytes[at].wrapping_add(1),
            _ => bytes[at] ^= 0x20,
        }
        Text { name: format!("d-changed-{at:03}"), bytes, want: None }
    };
    (0..P1.len()).map(make).collect()
}
