//! The evaluator's call: an expression by itself and a table.

use super::{BadTable, Expression, Table, Truth, Unacceptable};
use crate::answer::Answer;

/// In the order of the tests.
#[derive(Clone, Copy, Debug, PartialEq, Eq)]
pub enum Refused {
    Expression(Unacceptable),
    Table(BadTable),
}

impl Refused {
    /// No list is concerned.
    pub fn answer(self) -> Answer {
        Answer::refused_as_a_whole(match self {
            Refused::Expression(_) => 15,
            Refused::Table(_) => 23,
        })
    }

    pub fn name(self) -> &'static str {
        match self {
            Refused::Expression(unacceptable) => unacceptable.name(),
            Refused::Table(bad) => bad.name(),
        }
    }
}

/// The eight numbers of the answer.
pub fn evaluate(expression: &[u8], table: &[u8]) -> [u32; 8] {
    match try_evaluate(expression, table) {
        Ok(truth) => [0, 0, 0, truth.number(), 0, 0, 0, 0],
        Err(refused) => refused.answer().eight(),
    }
}

pub fn try_evaluate(expression: &[u8], table: &[u8]) -> Result<Truth, Refused> {
    let expression = Expression::parse_alone(expression).map_err(Refused::Expression)?;
    let table = Table::parse(table).map_err(Refused::Table)?;
    Ok(expression.condition.truth(&table))
}
