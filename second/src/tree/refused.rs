//! Why a call on a tree is refused, finer than document 01's numbers.

use crate::answer::Answer;
use crate::refusal::Refusal;

const OF_OWN_LISTS: u32 = 2;
const OF_DEFAULT_LISTS: u32 = 3;

#[derive(Clone, Copy, Debug, PartialEq, Eq)]
pub enum Refused {
    NotATree,
    Limits,
    Rule,
    RoomTooShort,
    Default(Refusal),
    DefaultTooLong,
    NoSuchObject,
    FirstWithParent,
    LaterWithoutParent,
    ParentMissing,
    ParentNoContainer,
    ObjectLimit,
    Given(Refusal),
    Owner,
    Group,
    GivenTooLong,
    ComputedTooLong,
    NothingKept,
    OutTooShort,
}

impl Refused {
    pub fn answer(self) -> Answer {
        let number = match self {
            Refused::Given(refusal) => return Answer::refused(refusal, OF_OWN_LISTS),
            Refused::Default(refusal) => return Answer::refused(refusal, OF_DEFAULT_LISTS),
            Refused::Owner | Refused::Group => 6,
            Refused::DefaultTooLong
            | Refused::GivenTooLong
            | Refused::ComputedTooLong
            | Refused::OutTooShort => 8,
            Refused::NoSuchObject
            | Refused::FirstWithParent
            | Refused::LaterWithoutParent
            | Refused::ParentMissing
            | Refused::ParentNoContainer => 9,
            Refused::ObjectLimit => 10,
            Refused::NothingKept => 11,
            Refused::Limits | Refused::Rule | Refused::RoomTooShort => 12,
            Refused::NotATree => 13,
        };
        Answer::refused_as_a_whole(number)
    }

    pub fn name(self) -> &'static str {
        match self {
            Refused::NotATree => "not a tree",
            Refused::Limits => "limits",
            Refused::Rule => "rule",
            Refused::RoomTooShort => "room too short",
            Refused::Default(refusal) | Refused::Given(refusal) => refusal.fault.name(),
            Refused::DefaultTooLong => "default too long",
            Refused::NoSuchObject => "no such object",
            Refused::FirstWithParent => "first with a parent",
            Refused::LaterWithoutParent => "later without a parent",
            Refused::ParentMissing => "parent missing",
            Refused::ParentNoContainer => "parent no container",
            Refused::ObjectLimit => "object limit",
            Refused::Owner => "owner",
            Refused::Group => "group",
            Refused::GivenTooLong => "given list too long",
            Refused::ComputedTooLong => "computed list too long",
            Refused::NothingKept => "nothing kept",
            Refused::OutTooShort => "out too short",
        }
    }
}
