//! Why two lists aren't compared, in the order of the tests.

use crate::answer::Answer;
use crate::refusal::Refusal;

/// By its place among the arguments.
#[derive(Clone, Copy, Debug, PartialEq, Eq)]
pub enum Which {
    First,
    Second,
}

impl Which {
    pub const ALL: [Which; 2] = [Which::First, Which::Second];

    pub fn number(self) -> u32 {
        match self {
            Which::First => 1,
            Which::Second => 2,
        }
    }

    pub fn name(self) -> &'static str {
        match self {
            Which::First => "first list",
            Which::Second => "second list",
        }
    }
}

#[derive(Clone, Copy, Debug, PartialEq, Eq)]
pub enum Refused {
    List(Which, Refusal),
    TooManyEntries,
    RowTooShort,
}

impl Refused {
    pub fn answer(self) -> Answer {
        match self {
            Refused::List(which, refusal) => Answer::refused(refusal, which.number()),
            Refused::TooManyEntries => Answer::refused_as_a_whole(22),
            Refused::RowTooShort => Answer::refused_as_a_whole(8),
        }
    }

    pub fn name(self) -> String {
        match self {
            Refused::List(which, refusal) => {
                format!("{}: {}", which.name(), refusal.fault.name())
            }
            Refused::TooManyEntries => "over 128 entries".to_string(),
            Refused::RowTooShort => "row too short".to_string(),
        }
    }
}
