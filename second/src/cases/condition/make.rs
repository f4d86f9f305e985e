//! Expressions and tables, put together from their parts.

use crate::condition::{SIGNATURE, Truth, code, padded_length};
use crate::records::Case;

pub const EQUAL: u8 = code::COMPARISONS[0];
pub const AT_LEAST: u8 = code::COMPARISONS[5];
/// No table of these cases has it.
pub const NOWHERE: &str = "x";

/// A text in 16-bit units.
pub fn units(text: &str) -> Vec<u8> {
    text.encode_utf16().flat_map(u16::to_le_bytes).collect()
}

/// The token of a name, by its bytes.
pub fn name_of(bytes: &[u8]) -> Vec<u8> {
    let length = bytes.len() as u32;
    [&[code::NAME], &length.to_le_bytes()[..], bytes].concat()
}

pub fn name(text: &str) -> Vec<u8> {
    name_of(&units(text))
}

/// As a typed decimal number without a sign is stored.
pub fn literal(value: i64) -> Vec<u8> {
    literal_written(value, 3, 2)
}

pub fn literal_written(value: i64, sign: u8, base: u8) -> Vec<u8> {
    [&[code::LITERAL], &value.to_le_bytes()[..], &[sign, base]].concat()
}

pub fn compared(left: Vec<u8>, comparison: u8, right: Vec<u8>) -> Vec<u8> {
    [left, right, vec![comparison]].concat()
}

pub fn exists(text: &str) -> Vec<u8> {
    exists_of(&units(text))
}

/// Of a name, by its bytes.
pub fn exists_of(bytes: &[u8]) -> Vec<u8> {
    [name_of(bytes), vec![code::EXISTS]].concat()
}

pub fn both(left: Vec<u8>, right: Vec<u8>) -> Vec<u8> {
    [left, right, vec![code::AND]].concat()
}

pub fn either(left: Vec<u8>, right: Vec<u8>) -> Vec<u8> {
    [left, right, vec![code::OR]].concat()
}

pub fn not(condition: Vec<u8>) -> Vec<u8> {
    negated(condition, 1)
}

/// So many times not.
pub fn negated(condition: Vec<u8>, times: usize) -> Vec<u8> {
    [condition, vec![code::NOT; times]].concat()
}

/// A condition that comes to this without a table.
pub fn of_truth(truth: Truth) -> Vec<u8> {
    match truth {
        Truth::False => exists(NOWHERE),
        Truth::True => not(exists(NOWHERE)),
        Truth::Unknown => compared(name(NOWHERE), EQUAL, name(NOWHERE)),
    }
}

/// The same by comparisons alone.
pub fn of_truth_compared(truth: Truth) -> Vec<u8> {
    match truth {
        Truth::False => compared(literal(1), EQUAL, literal(2)),
        Truth::True => compared(literal(1), EQUAL, literal(1)),
        Truth::Unknown => compared(literal(1), EQUAL, name(NOWHERE)),
    }
}

/// The signature and the tokens, without zeros.
pub fn stored(tokens: Vec<u8>) -> Vec<u8> {
    [SIGNATURE.to_vec(), tokens].concat()
}

/// With zeros up to a multiple of four.
pub fn padded(mut expression: Vec<u8>) -> Vec<u8> {
    expression.resize(padded_length(expression.len()), 0);
    expression
}

/// The level is at least 3, or there is a name "b".
pub fn some_expression() -> Vec<u8> {
    let level = compared(name("level"), AT_LEAST, literal(3));
    stored(either(level, exists("b")))
}

/// Of a table, by a name's bytes.
pub fn record_of(name: &[u8], value: i64) -> Vec<u8> {
    let length = name.len() as u16;
    [&length.to_le_bytes(), name, &value.to_le_bytes()].concat()
}

pub fn table(values: &[(&str, i64)]) -> Vec<u8> {
    let records = values.iter();
    records
        .flat_map(|(name, value)| record_of(&units(name), *value))
        .collect()
}

pub fn evaluate(expression: Vec<u8>, table: Vec<u8>) -> Case {
    Case::Evaluate { expression, table }
}

/// By an empty table.
pub fn by_nothing(tokens: Vec<u8>) -> Case {
    evaluate(stored(tokens), Vec::new())
}
