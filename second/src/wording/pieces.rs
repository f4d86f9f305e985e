//! The pieces of a text that the machine let through.

use super::{Operand, number};
use crate::condition::Comparison;

#[derive(Clone, Debug, PartialEq, Eq)]
pub enum Piece {
    Operand(Operand),
    Compare(Comparison),
    And,
    Or,
    Not,
    Open,
    Close,
}

/// As they are written; a longer one stands before one that begins it.
const SIGNS: [(&str, Piece); 11] = [
    ("==", Piece::Compare(Comparison::Equal)),
    ("!=", Piece::Compare(Comparison::NotEqual)),
    ("<=", Piece::Compare(Comparison::LessOrEqual)),
    (">=", Piece::Compare(Comparison::GreaterOrEqual)),
    ("<", Piece::Compare(Comparison::Less)),
    (">", Piece::Compare(Comparison::Greater)),
    ("&&", Piece::And),
    ("||", Piece::Or),
    ("!", Piece::Not),
    ("(", Piece::Open),
    (")", Piece::Close),
];

pub fn cut(text: &str) -> Vec<Piece> {
    let mut pieces = Vec::new();
    let mut rest = text;
    while !rest.is_empty() {
        let (piece, behind) = first(rest);
        pieces.push(piece);
        rest = behind;
    }
    pieces
}

fn first(text: &str) -> (Piece, &str) {
    for (sign, piece) in SIGNS {
        if let Some(behind) = text.strip_prefix(sign) {
            return (piece, behind);
        }
    }
    let end = text[1..]
        .find(|c: char| !c.is_ascii_alphanumeric())
        .map_or(text.len(), |at| 1 + at);
    let (written, behind) = text.split_at(end);
    (Piece::Operand(operand(written)), behind)
}

fn operand(written: &str) -> Operand {
    if written.starts_with(|c: char| c.is_ascii_alphabetic()) {
        Operand::Name(written.to_string())
    } else {
        Operand::Integer(number::value(written))
    }
}
