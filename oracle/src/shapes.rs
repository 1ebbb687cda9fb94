//! The lines of a file as what may stand in them, and how far a text can go along one.

use crate::tables::{Operand, KINDS, LOGICS, STEPS};

/// What stands at a line's place.
#[derive(Clone, Copy, Debug, PartialEq, Eq)]
pub enum Line {
    /// A key with one number.
    Number(&'static str),
    Logic,
    Form,
    Step,
}

/// A part of a line: these bytes, or a number.
#[derive(Clone, Debug, PartialEq, Eq)]
enum Piece {
    Bytes(Vec<u8>),
    Number,
}

impl Line {
    pub fn key(self) -> &'static str {
        match self {
            Line::Number(key) => key,
            Line::Logic => "logic",
            Line::Form => "form",
            Line::Step => "step",
        }
    }

    /// Each way in which such a line can be in shape, its LF included.
    fn ways(self) -> Vec<Vec<Piece>> {
        let items = |operands: [Operand; 2]| operands.iter().filter(|operand| **operand != Operand::Nothing).count();
        match self {
            Line::Number(key) => vec![vec![bytes(&format!("{key}=")), Piece::Number, bytes("\n")]],
            Line::Logic => LOGICS.iter().map(|(word, _)| way("logic", word, 0)).collect(),
            Line::Form => KINDS.iter().map(|(word, operands)| way("form", word, items(*operands))).collect(),
            Line::Step => {
                STEPS.iter().map(|(word, step)| way("step", word, usize::from(step.number().is_some()))).collect()
            }
        }
    }

    /// The column, from 1, of the first byte at which the beginning of the text can no longer be the beginning of a line in
    /// shape; one past the last byte where the text ends before that.
    pub fn column(self, text: &[u8]) -> usize {
        1 + self.ways().iter().map(|way| reach(way, text)).max().unwrap_or(0)
    }
}

fn bytes(text: &str) -> Piece {
    Piece::Bytes(text.as_bytes().to_vec())
}

fn way(key: &str, word: &str, items: usize) -> Vec<Piece> {
    let mut pieces = vec![bytes(&format!("{key}={word}"))];
    (0..items).for_each(|_| pieces.extend([bytes(" "), Piece::Number]));
    pieces.push(bytes("\n"));
    pieces
}

/// How many bytes at the start of the text can be the beginning of a line that goes this way.
fn reach(way: &[Piece], text: &[u8]) -> usize {
    let mut at = 0;
    for piece in way {
        let rest = &text[at..];
        let (taken, whole) = match piece {
            Piece::Bytes(bytes) => {
                let same = rest.iter().zip(bytes).take_while(|(one, other)| one == other).count();
                (same, same == bytes.len())
            }
            Piece::Number => {
                let number = number_at(rest);
                (number.length, number.length > 0)
            }
        };
        at += taken;
        if !whole {
            break;
        }
    }
    at
}

/// The number that a text begins with, and where it stops: at the first byte that cannot go on with it.
#[derive(Clone, Copy, Debug, Default, PartialEq, Eq)]
pub struct Number {
    pub value: usize,
    /// 0 where the text begins with no number.
    pub length: usize,
}

/// A number is 1 to 5 digits, no leading zero but in 0 itself.
pub fn number_at(text: &[u8]) -> Number {
    let mut number = Number::default();
    for byte in text.iter().take(5).take_while(|byte| byte.is_ascii_digit()) {
        number = Number { value: 10 * number.value + usize::from(byte - b'0'), length: number.length + 1 };
        if number.value == 0 {
            break;
        }
    }
    number
}
