//! Conditional entries, document 02's fifth ticket: what stands behind the
//! SID, taken apart from its last token to its first into a condition, and
//! what the condition comes to by a table of names.

mod evaluation;
mod expression;
mod shape;
mod table;
mod token;
mod truth;
mod unacceptable;

pub use evaluation::{Refused, evaluate, try_evaluate};
pub use expression::{Expression, MOST_DEPTH, MOST_TOKENS, padded_length};
pub use shape::{Condition, Operand};
pub use table::{BadTable, MOST_NAMES, Table};
pub use token::{Comparison, SIGNATURE, Token, code};
pub use truth::Truth;
pub use unacceptable::Unacceptable;

#[cfg(test)]
mod tests;
