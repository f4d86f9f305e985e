//! What a text means where names have values: by what it says, and not by its
//! stored form. `None` is unknown.

use super::{Operand, Said};
use crate::condition::{Comparison, Truth};

impl Said {
    pub fn meaning(&self, value_of: &dyn Fn(&str) -> Option<i64>) -> Truth {
        match self.holds(value_of) {
            Some(true) => Truth::True,
            Some(false) => Truth::False,
            None => Truth::Unknown,
        }
    }

    fn holds(&self, value_of: &dyn Fn(&str) -> Option<i64>) -> Option<bool> {
        let of = |part: &Said| part.holds(value_of);
        match self {
            Said::Compared(left, comparison, right) => {
                let (left, right) = (left.value(value_of)?, right.value(value_of)?);
                Some(compare(left, *comparison, right))
            }
            Said::Not(part) => of(part).map(|holds| !holds),
            // One that is false decides, whatever the other is.
            Said::Both(left, right) => match (of(left), of(right)) {
                (Some(false), _) | (_, Some(false)) => Some(false),
                (Some(true), Some(true)) => Some(true),
                _ => None,
            },
            // One that is true decides.
            Said::Either(left, right) => match (of(left), of(right)) {
                (Some(true), _) | (_, Some(true)) => Some(true),
                (Some(false), Some(false)) => Some(false),
                _ => None,
            },
        }
    }
}

impl Operand {
    fn value(&self, value_of: &dyn Fn(&str) -> Option<i64>) -> Option<i64> {
        match self {
            Operand::Integer(value) => Some(*value),
            Operand::Name(name) => value_of(name),
        }
    }
}

fn compare(left: i64, comparison: Comparison, right: i64) -> bool {
    match comparison {
        Comparison::Equal => left == right,
        Comparison::NotEqual => left != right,
        Comparison::Less => left < right,
        Comparison::LessOrEqual => left <= right,
        Comparison::Greater => left > right,
        Comparison::GreaterOrEqual => left >= right,
    }
}
