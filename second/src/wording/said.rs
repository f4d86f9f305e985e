//! What a text says: a tree, in which no parenthesis is left.

use crate::condition::Comparison;

#[derive(Clone, Debug, PartialEq, Eq)]
pub enum Operand {
    Integer(i64),
    Name(String),
}

#[derive(Clone, Debug, PartialEq, Eq)]
pub enum Said {
    Compared(Operand, Comparison, Operand),
    Not(Box<Said>),
    Both(Box<Said>, Box<Said>),
    Either(Box<Said>, Box<Said>),
}
