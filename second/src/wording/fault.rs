//! Why a text is refused, with document 02's number for it.

use crate::answer::Answer;

/// One name for each way, finer than document 02's numbers; in the order of
/// the tests.
#[derive(Clone, Copy, Debug, PartialEq, Eq, PartialOrd, Ord)]
pub enum Fault {
    TooLong,
    /// A byte that no text goes on with.
    Byte,
    /// A parenthesis too many.
    Nested,
    /// The digit that leaves 64 bits.
    Range,
    /// The end of a text that has to go on.
    Ends,
    Tokens,
    Depth,
    TokensAndDepth,
    Room,
}

impl Fault {
    pub const ALL: [Fault; 9] = [
        Fault::TooLong,
        Fault::Byte,
        Fault::Nested,
        Fault::Range,
        Fault::Ends,
        Fault::Tokens,
        Fault::Depth,
        Fault::TokensAndDepth,
        Fault::Room,
    ];

    pub fn number(self) -> u32 {
        match self {
            Fault::TooLong | Fault::Byte | Fault::Nested | Fault::Range | Fault::Ends => 16,
            Fault::Tokens | Fault::Depth | Fault::TokensAndDepth => 17,
            Fault::Room => 8,
        }
    }

    pub fn name(self) -> &'static str {
        match self {
            Fault::TooLong => "text: over 512 bytes",
            Fault::Byte => "text: a byte that can't stand there",
            Fault::Nested => "text: a 13th open parenthesis",
            Fault::Range => "text: a digit past 64 bits",
            Fault::Ends => "text: ends too early",
            Fault::Tokens => "over 64 tokens",
            Fault::Depth => "over depth 16",
            Fault::TokensAndDepth => "over 64 tokens and depth 16",
            Fault::Room => "out too short",
        }
    }
}

/// A fault and where it stands in the text; 17 and 8 stand at 0.
#[derive(Clone, Copy, Debug, PartialEq, Eq)]
pub struct Refused {
    pub fault: Fault,
    pub offset: usize,
}

impl Refused {
    pub fn in_text(fault: Fault, offset: usize) -> Refused {
        Refused { fault, offset }
    }

    pub fn as_a_whole(fault: Fault) -> Refused {
        Refused { fault, offset: 0 }
    }

    pub fn answer(self) -> Answer {
        Answer {
            offset: self.offset as u32,
            ..Answer::refused_as_a_whole(self.fault.number())
        }
    }
}
