//! What a condition is made of. The tokens are taken from the last to the
//! first: an operator comes behind its operands, the right one next to it.

use super::{Comparison, Table, Token, Truth, Unacceptable};

#[derive(Clone, Copy, Debug, PartialEq, Eq)]
pub enum Operand<'a> {
    Number(i64),
    Name(&'a [u8]),
}

#[derive(Clone, Debug, PartialEq, Eq)]
pub enum Condition<'a> {
    Compared(Comparison, Operand<'a>, Operand<'a>),
    Exists(&'a [u8]),
    Both(Box<[Condition<'a>; 2]>),
    Either(Box<[Condition<'a>; 2]>),
    Not(Box<Condition<'a>>),
}

impl<'a> Condition<'a> {
    /// All of the tokens make one condition.
    pub fn of(mut tokens: Vec<Token<'a>>) -> Result<Condition<'a>, Unacceptable> {
        let whole = condition(&mut tokens)?;
        if !tokens.is_empty() {
            return Err(Unacceptable::NotAlone);
        }
        Ok(whole)
    }

    /// The most that stand on a stack at once: while the right part is worked
    /// out, the left one stands below it.
    pub fn depth(&self) -> usize {
        match self {
            Condition::Compared(..) => 2,
            Condition::Exists(_) => 1,
            Condition::Both(parts) | Condition::Either(parts) => {
                let [left, right] = parts.each_ref().map(Condition::depth);
                left.max(1 + right)
            }
            Condition::Not(part) => part.depth(),
        }
    }

    pub fn truth(&self, table: &Table) -> Truth {
        let of_both = |parts: &[Condition; 2]| parts.each_ref().map(|part| part.truth(table));
        match self {
            Condition::Compared(comparison, left, right) => {
                match (left.value(table), right.value(table)) {
                    (Some(left), Some(right)) => comparison.holds(left.cmp(&right)).into(),
                    _ => Truth::Unknown,
                }
            }
            Condition::Exists(name) => table.value(name).is_some().into(),
            Condition::Both(parts) => {
                let [left, right] = of_both(parts);
                left.and(right)
            }
            Condition::Either(parts) => {
                let [left, right] = of_both(parts);
                left.or(right)
            }
            Condition::Not(part) => part.truth(table).negated(),
        }
    }
}

impl Operand<'_> {
    /// `None` for a name that is missing.
    fn value(&self, table: &Table) -> Option<i64> {
        match self {
            Operand::Number(number) => Some(*number),
            Operand::Name(name) => table.value(name),
        }
    }
}

/// Takes the last tokens, which are to make a condition.
fn condition<'a>(tokens: &mut Vec<Token<'a>>) -> Result<Condition<'a>, Unacceptable> {
    match last(tokens)? {
        Token::Comparison(comparison) => {
            let right = operand(tokens)?;
            let left = operand(tokens)?;
            Ok(Condition::Compared(comparison, left, right))
        }
        Token::Exists => match operand(tokens)? {
            Operand::Name(name) => Ok(Condition::Exists(name)),
            Operand::Number(_) => Err(Unacceptable::WrongKind),
        },
        Token::And => Ok(Condition::Both(two_conditions(tokens)?)),
        Token::Or => Ok(Condition::Either(two_conditions(tokens)?)),
        Token::Not => Ok(Condition::Not(Box::new(condition(tokens)?))),
        Token::Literal(_) | Token::Name(_) => Err(Unacceptable::WrongKind),
    }
}

fn two_conditions<'a>(
    tokens: &mut Vec<Token<'a>>,
) -> Result<Box<[Condition<'a>; 2]>, Unacceptable> {
    let right = condition(tokens)?;
    let left = condition(tokens)?;
    Ok(Box::new([left, right]))
}

fn operand<'a>(tokens: &mut Vec<Token<'a>>) -> Result<Operand<'a>, Unacceptable> {
    match last(tokens)? {
        Token::Literal(number) => Ok(Operand::Number(number)),
        Token::Name(name) => Ok(Operand::Name(name)),
        _ => Err(Unacceptable::WrongKind),
    }
}

fn last<'a>(tokens: &mut Vec<Token<'a>>) -> Result<Token<'a>, Unacceptable> {
    tokens.pop().ok_or(Unacceptable::OperandMissing)
}
