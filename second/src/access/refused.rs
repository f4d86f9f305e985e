//! Why a question is refused, in the order of the tests.

use crate::answer::Answer;
use crate::condition::BadTable;
use crate::refusal::Refusal;

#[derive(Clone, Copy, Debug, PartialEq, Eq)]
pub enum Refused {
    GenericWanted,
    List(Refusal),
    HeldNotSids,
    TooManyHeld,
    Table(BadTable),
}

impl Refused {
    /// A bad list is list 0, as the reader gives it.
    pub fn answer(self) -> Answer {
        match self {
            Refused::GenericWanted => Answer::refused_as_a_whole(14),
            Refused::List(refusal) => Answer::refused(refusal, 0),
            Refused::HeldNotSids => Answer::refused_as_a_whole(6),
            Refused::TooManyHeld => Answer::refused_as_a_whole(7),
            Refused::Table(_) => Answer::refused_as_a_whole(23),
        }
    }

    pub fn name(self) -> &'static str {
        match self {
            Refused::GenericWanted => "a generic bit wanted",
            Refused::List(refusal) => refusal.fault.name(),
            Refused::HeldNotSids => "held bytes aren't SIDs",
            Refused::TooManyHeld => "over 32 SIDs held",
            Refused::Table(bad) => bad.name(),
        }
    }
}
