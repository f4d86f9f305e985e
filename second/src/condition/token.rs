//! The tokens of MS-DTYP's stored form that are taken.

use super::Unacceptable;
use std::cmp::Ordering;

/// Before the tokens, and none of them.
pub const SIGNATURE: [u8; 4] = *b"artx";

/// A token's first byte.
pub mod code {
    /// Where a token should begin, the end of them.
    pub const PADDING: u8 = 0x00;
    pub const LITERAL: u8 = 0x04;
    pub const NAME: u8 = 0xF8;
    /// ==, !=, <, <=, >, >=
    pub const COMPARISONS: [u8; 6] = [0x80, 0x81, 0x82, 0x83, 0x84, 0x85];
    pub const EXISTS: u8 = 0x87;
    pub const AND: u8 = 0xA0;
    pub const OR: u8 = 0xA1;
    pub const NOT: u8 = 0xA2;
}

#[derive(Clone, Copy, Debug, PartialEq, Eq)]
pub enum Comparison {
    Equal,
    NotEqual,
    Less,
    LessOrEqual,
    Greater,
    GreaterOrEqual,
}

impl Comparison {
    /// In the order of their bytes.
    pub const ALL: [Comparison; 6] = [
        Comparison::Equal,
        Comparison::NotEqual,
        Comparison::Less,
        Comparison::LessOrEqual,
        Comparison::Greater,
        Comparison::GreaterOrEqual,
    ];

    fn of(byte: u8) -> Option<Comparison> {
        let place = code::COMPARISONS.iter().position(|&code| code == byte)?;
        Some(Comparison::ALL[place])
    }

    /// Whether it holds where the left is so to the right.
    pub fn holds(self, left_to_right: Ordering) -> bool {
        match self {
            Comparison::Equal => left_to_right.is_eq(),
            Comparison::NotEqual => left_to_right.is_ne(),
            Comparison::Less => left_to_right.is_lt(),
            Comparison::LessOrEqual => left_to_right.is_le(),
            Comparison::Greater => left_to_right.is_gt(),
            Comparison::GreaterOrEqual => left_to_right.is_ge(),
        }
    }
}

#[derive(Clone, Copy, Debug, PartialEq, Eq)]
pub enum Token<'a> {
    Literal(i64),
    Name(&'a [u8]),
    Comparison(Comparison),
    Exists,
    And,
    Or,
    Not,
}

impl<'a> Token<'a> {
    /// The token that begins here, and what is behind it.
    pub fn cut_off(bytes: &'a [u8]) -> Result<(Token<'a>, &'a [u8]), Unacceptable> {
        let (&first, rest) = bytes.split_first().ok_or(Unacceptable::TokenCut)?;
        match first {
            code::LITERAL => cut_literal(rest),
            code::NAME => cut_name(rest),
            _ => Ok((operator(first).ok_or(Unacceptable::UnknownToken)?, rest)),
        }
    }
}

fn operator(byte: u8) -> Option<Token<'static>> {
    match byte {
        code::EXISTS => Some(Token::Exists),
        code::AND => Some(Token::And),
        code::OR => Some(Token::Or),
        code::NOT => Some(Token::Not),
        _ => Comparison::of(byte).map(Token::Comparison),
    }
}

/// Eight bytes of two's complement say the number; the sign and base bytes
/// say nothing about it, but each is 1 to 3.
fn cut_literal(rest: &[u8]) -> Result<(Token<'_>, &[u8]), Unacceptable> {
    let (value, rest) = rest.split_first_chunk().ok_or(Unacceptable::TokenCut)?;
    let (written, rest) = rest
        .split_first_chunk::<2>()
        .ok_or(Unacceptable::TokenCut)?;
    if written.iter().any(|byte| !(1..=3).contains(byte)) {
        return Err(Unacceptable::SignOrBase);
    }
    Ok((Token::Literal(i64::from_le_bytes(*value)), rest))
}

/// The length is in bytes, even and not 0.
fn cut_name(rest: &[u8]) -> Result<(Token<'_>, &[u8]), Unacceptable> {
    let (length, rest) = rest.split_first_chunk().ok_or(Unacceptable::TokenCut)?;
    let length = u32::from_le_bytes(*length);
    if !is_name_length(length) {
        return Err(Unacceptable::NameLength);
    }
    let (name, rest) = rest
        .split_at_checked(length as usize)
        .ok_or(Unacceptable::TokenCut)?;
    Ok((Token::Name(name), rest))
}

/// In an expression and in a table.
pub fn is_name_length(length: u32) -> bool {
    length != 0 && length.is_multiple_of(2)
}
