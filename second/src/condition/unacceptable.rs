//! Why an expression isn't acceptable: all of it is number 15.

#[derive(Clone, Copy, Debug, PartialEq, Eq, PartialOrd, Ord)]
pub enum Unacceptable {
    /// The four bytes at the front.
    Signature,
    UnknownToken,
    TokenCut,
    SignOrBase,
    NameLength,
    /// Another byte behind the zeros that end the tokens.
    BehindZeros,
    TooManyTokens,
    /// An operator without all of its operands, or no token at all.
    OperandMissing,
    WrongKind,
    /// Something stands before the condition.
    NotAlone,
    TooDeep,
    /// Zeros other than those up to a multiple of four, in a call alone.
    Zeros,
}

impl Unacceptable {
    pub const ALL: [Unacceptable; 12] = [
        Unacceptable::Signature,
        Unacceptable::UnknownToken,
        Unacceptable::TokenCut,
        Unacceptable::SignOrBase,
        Unacceptable::NameLength,
        Unacceptable::BehindZeros,
        Unacceptable::TooManyTokens,
        Unacceptable::OperandMissing,
        Unacceptable::WrongKind,
        Unacceptable::NotAlone,
        Unacceptable::TooDeep,
        Unacceptable::Zeros,
    ];

    pub fn name(self) -> &'static str {
        match self {
            Unacceptable::Signature => "signature",
            Unacceptable::UnknownToken => "unknown token",
            Unacceptable::TokenCut => "token cut",
            Unacceptable::SignOrBase => "sign or base byte",
            Unacceptable::NameLength => "length of a name",
            Unacceptable::BehindZeros => "a byte behind the zeros",
            Unacceptable::TooManyTokens => "over 64 tokens",
            Unacceptable::OperandMissing => "an operand is missing",
            Unacceptable::WrongKind => "wrong kind",
            Unacceptable::NotAlone => "more than one condition",
            Unacceptable::TooDeep => "over depth 16",
            Unacceptable::Zeros => "zeros",
        }
    }
}
