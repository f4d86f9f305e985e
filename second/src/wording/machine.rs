//! Goes over a text byte by byte. What may follow hangs on three things alone:
//! the state, how many parentheses are open, and the integer that is being
//! written. From each of them some text goes on to an end, so the first byte
//! that has no step is the first after which no continuation is left.

use super::number::Number;
use super::{Fault, MOST_OPEN, Refused};
use Class::*;
use State::*;

/// What a byte is to a text; all others are nothing.
#[derive(Clone, Copy, Debug, PartialEq, Eq)]
enum Class {
    Letter,
    Digit,
    Minus,
    Equals,
    Bang,
    Less,
    Greater,
    Ampersand,
    Bar,
    Open,
    Close,
}

fn class(byte: u8) -> Option<Class> {
    Some(match byte {
        b'A'..=b'Z' | b'a'..=b'z' => Letter,
        b'0'..=b'9' => Digit,
        b'-' => Minus,
        b'=' => Equals,
        b'!' => Bang,
        b'<' => Less,
        b'>' => Greater,
        b'&' => Ampersand,
        b'|' => Bar,
        b'(' => Open,
        b')' => Close,
        _ => return None,
    })
}

/// What has just been read.
#[derive(Clone, Copy, Debug, PartialEq, Eq)]
enum State {
    /// Nothing, or what a factor stands behind: "(", "!", "&&", "||".
    BeforeFactor,
    LeftName,
    LeftMinus,
    LeftInteger,
    /// "=" or "!", which ask for one more "=".
    HalfComparison,
    /// "<" or ">", which may have one.
    ShortComparison,
    WholeComparison,
    RightName,
    RightMinus,
    RightInteger,
    Closed,
    HalfAnd,
    HalfOr,
}

/// From any of these states, by any of these bytes, to that state.
const STEPS: [(&[State], &[Class], State); 17] = [
    (&[BeforeFactor], &[Bang, Open], BeforeFactor),
    (&[BeforeFactor], &[Letter], LeftName),
    (&[BeforeFactor], &[Minus], LeftMinus),
    (
        &[BeforeFactor, LeftMinus, LeftInteger],
        &[Digit],
        LeftInteger,
    ),
    (&[LeftName], &[Letter, Digit], LeftName),
    (&[LeftName, LeftInteger], &[Equals, Bang], HalfComparison),
    (&[LeftName, LeftInteger], &[Less, Greater], ShortComparison),
    (
        &[HalfComparison, ShortComparison],
        &[Equals],
        WholeComparison,
    ),
    (&[ShortComparison, WholeComparison], &[Letter], RightName),
    (&[ShortComparison, WholeComparison], &[Minus], RightMinus),
    (
        &[ShortComparison, WholeComparison, RightMinus, RightInteger],
        &[Digit],
        RightInteger,
    ),
    (&[RightName], &[Letter, Digit], RightName),
    (&[RightName, RightInteger, Closed], &[Close], Closed),
    (&[RightName, RightInteger, Closed], &[Ampersand], HalfAnd),
    (&[RightName, RightInteger, Closed], &[Bar], HalfOr),
    (&[HalfAnd], &[Ampersand], BeforeFactor),
    (&[HalfOr], &[Bar], BeforeFactor),
];

/// Where a text may end, if no parenthesis is open.
const ENDS: [State; 3] = [RightName, RightInteger, Closed];

struct Machine {
    state: State,
    open: usize,
    number: Number,
}

/// Whether the text is in the grammar, with its nesting and its range; its
/// length isn't looked at.
pub fn check(text: &[u8]) -> Result<(), Refused> {
    let mut machine = Machine {
        state: BeforeFactor,
        open: 0,
        number: Number::default(),
    };
    for (at, &byte) in text.iter().enumerate() {
        machine
            .step(byte)
            .map_err(|fault| Refused::in_text(fault, at))?;
    }
    if !machine.may_end() {
        return Err(Refused::in_text(Fault::Ends, text.len()));
    }
    Ok(())
}

impl Machine {
    fn step(&mut self, byte: u8) -> Result<(), Fault> {
        let class = class(byte).ok_or(Fault::Byte)?;
        let next = next(self.state, class).ok_or(Fault::Byte)?;
        self.nest(class)?;
        self.count(byte, next)?;
        self.state = next;
        Ok(())
    }

    fn nest(&mut self, class: Class) -> Result<(), Fault> {
        match class {
            Open if self.open == MOST_OPEN => return Err(Fault::Nested),
            Open => self.open += 1,
            Close => self.open = self.open.checked_sub(1).ok_or(Fault::Byte)?,
            _ => {}
        }
        Ok(())
    }

    /// Digits of a name are none of an integer.
    fn count(&mut self, byte: u8, next: State) -> Result<(), Fault> {
        match next {
            LeftMinus | RightMinus => self.number = Number::negative(),
            LeftInteger | RightInteger if self.number.takes(byte) => {}
            LeftInteger | RightInteger => return Err(Fault::Range),
            _ => self.number = Number::default(),
        }
        Ok(())
    }

    fn may_end(&self) -> bool {
        ENDS.contains(&self.state) && self.open == 0
    }
}

fn next(state: State, class: Class) -> Option<State> {
    let mut steps = STEPS.iter();
    let step = steps.find(|(from, by, _)| from.contains(&state) && by.contains(&class));
    step.map(|&(_, _, to)| to)
}

#[cfg(test)]
mod tests {
    use super::*;

    const STATES: [State; 13] = [
        BeforeFactor,
        LeftName,
        LeftMinus,
        LeftInteger,
        HalfComparison,
        ShortComparison,
        WholeComparison,
        RightName,
        RightMinus,
        RightInteger,
        Closed,
        HalfAnd,
        HalfOr,
    ];
    const CLASSES: [Class; 11] = [
        Letter, Digit, Minus, Equals, Bang, Less, Greater, Ampersand, Bar, Open, Close,
    ];

    #[test]
    fn no_two_steps_are_for_the_same() {
        for state in STATES {
            for class in CLASSES {
                let steps = STEPS
                    .iter()
                    .filter(|(from, by, _)| from.contains(&state) && by.contains(&class));
                assert!(steps.count() <= 1, "{state:?} {class:?}");
            }
        }
    }

    /// What the offset of a refusal stands on: from every state an end is
    /// reached without opening a parenthesis, and "0" is in the range.
    #[test]
    fn every_state_goes_on_to_an_end() {
        let mut good = ENDS.to_vec();
        for _ in STATES {
            let before = STATES.into_iter().filter(|&state| {
                let mut classes = CLASSES.into_iter().filter(|&class| class != Open);
                classes.any(|class| next(state, class).is_some_and(|to| good.contains(&to)))
            });
            let more: Vec<State> = before.collect();
            good.extend(more);
        }
        assert!(STATES.iter().all(|state| good.contains(state)));
    }
}
