//! Three truths, from the least to the most.

/// In this order `and` is the lesser of two and `or` the greater.
#[derive(Clone, Copy, Debug, PartialEq, Eq, PartialOrd, Ord, Hash)]
pub enum Truth {
    False,
    Unknown,
    True,
}

impl Truth {
    pub const ALL: [Truth; 3] = [Truth::False, Truth::Unknown, Truth::True];

    pub fn and(self, other: Truth) -> Truth {
        self.min(other)
    }

    pub fn or(self, other: Truth) -> Truth {
        self.max(other)
    }

    /// `not`: the order turned, unknown staying in the middle.
    pub fn negated(self) -> Truth {
        match self {
            Truth::False => Truth::True,
            Truth::Unknown => Truth::Unknown,
            Truth::True => Truth::False,
        }
    }

    /// As the call gives it back.
    pub fn number(self) -> u32 {
        match self {
            Truth::False => 0,
            Truth::True => 1,
            Truth::Unknown => 2,
        }
    }

    pub fn name(self) -> &'static str {
        match self {
            Truth::False => "false",
            Truth::True => "true",
            Truth::Unknown => "unknown",
        }
    }
}

impl From<bool> for Truth {
    fn from(holds: bool) -> Truth {
        if holds { Truth::True } else { Truth::False }
    }
}
