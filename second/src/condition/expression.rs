//! The stored form: the signature, the tokens, zeros.

use super::{Condition, SIGNATURE, Token, Unacceptable, code};

pub const MOST_TOKENS: usize = 64;
pub const MOST_DEPTH: usize = 16;

#[derive(Clone, Debug, PartialEq, Eq)]
pub struct Expression<'a> {
    pub condition: Condition<'a>,
    /// Of the signature and the tokens; zeros may stand behind.
    pub length: usize,
}

impl<'a> Expression<'a> {
    /// However many zeros are behind the tokens.
    pub fn parse(bytes: &'a [u8]) -> Result<Expression<'a>, Unacceptable> {
        let (tokens, behind) = cut_into_tokens(bytes)?;
        let condition = Condition::of(tokens)?;
        if condition.depth() > MOST_DEPTH {
            return Err(Unacceptable::TooDeep);
        }
        Ok(Expression {
            condition,
            length: bytes.len() - behind.len(),
        })
    }

    /// As a call takes it: without padding, or padded to a multiple of four.
    pub fn parse_alone(bytes: &'a [u8]) -> Result<Expression<'a>, Unacceptable> {
        let expression = Expression::parse(bytes)?;
        let accepted = [expression.length, padded_length(expression.length)];
        if !accepted.contains(&bytes.len()) {
            return Err(Unacceptable::Zeros);
        }
        Ok(expression)
    }
}

/// With up to three zeros behind.
pub fn padded_length(length: usize) -> usize {
    length.next_multiple_of(4)
}

/// The tokens, and the zeros that end them.
fn cut_into_tokens(bytes: &[u8]) -> Result<(Vec<Token<'_>>, &[u8]), Unacceptable> {
    let mut rest = bytes
        .strip_prefix(&SIGNATURE)
        .ok_or(Unacceptable::Signature)?;
    let mut tokens = Vec::new();
    while rest.first().is_some_and(|&byte| byte != code::PADDING) {
        let (token, behind) = Token::cut_off(rest)?;
        if tokens.len() == MOST_TOKENS {
            return Err(Unacceptable::TooManyTokens);
        }
        tokens.push(token);
        rest = behind;
    }
    if rest.iter().any(|&byte| byte != code::PADDING) {
        return Err(Unacceptable::BehindZeros);
    }
    Ok((tokens, rest))
}
