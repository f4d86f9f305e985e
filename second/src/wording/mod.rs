//! Conditions typed as text, document 02's sixth ticket:
//!
//! ```text
//! condition  = term { "||" term }
//! term       = factor { "&&" factor }
//! factor     = "!" factor | "(" condition ")" | operand comparison operand
//! operand    = name | integer
//! comparison = "==" | "!=" | "<" | "<=" | ">" | ">="
//! name       = letter { letter | digit }
//! integer    = [ "-" ] digit { digit }
//! ```
//!
//! A machine goes over the text byte by byte and tells where no continuation
//! is left. What it lets through is cut into pieces, these are put together by
//! how tightly they bind, and what stands there then is written as tokens.

mod call;
mod fault;
mod join;
mod machine;
mod meaning;
mod number;
mod pieces;
mod said;
mod stored;

pub use call::{condition, read, translate, try_condition};
pub use fault::{Fault, Refused};
pub use said::{Operand, Said};
pub use stored::Stored;

pub const LONGEST_TEXT: usize = 512;
/// Parentheses that are open at once.
pub const MOST_OPEN: usize = 12;

#[cfg(test)]
mod tests;
