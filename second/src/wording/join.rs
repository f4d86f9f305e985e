//! Puts the pieces together. What asks for parts waits until something comes
//! that binds no tighter, and then takes the latest parts.

use super::pieces::Piece;
use super::{Operand, Said};
use crate::condition::Comparison;

#[derive(Clone, Copy, Debug, PartialEq, Eq)]
enum Waiting {
    Open,
    Or,
    And,
    Not,
    Compare(Comparison),
}

impl Waiting {
    /// How tightly it binds; nothing goes past an open parenthesis.
    fn strength(self) -> usize {
        match self {
            Waiting::Open => 0,
            Waiting::Or => 1,
            Waiting::And => 2,
            Waiting::Not => 3,
            Waiting::Compare(_) => 4,
        }
    }
}

#[derive(Default)]
struct Joiner {
    waiting: Vec<Waiting>,
    operands: Vec<Operand>,
    said: Vec<Said>,
}

/// Of a text that the machine let through.
pub fn join(pieces: Vec<Piece>) -> Said {
    let mut joiner = Joiner::default();
    for piece in pieces {
        joiner.take(piece);
    }
    joiner.settle(1);
    joiner.condition()
}

impl Joiner {
    fn take(&mut self, piece: Piece) {
        match piece {
            Piece::Operand(operand) => self.operands.push(operand),
            Piece::Compare(comparison) => self.between(Waiting::Compare(comparison)),
            Piece::And => self.between(Waiting::And),
            Piece::Or => self.between(Waiting::Or),
            // These stand before what they take: nothing is whole yet.
            Piece::Not => self.waiting.push(Waiting::Not),
            Piece::Open => self.waiting.push(Waiting::Open),
            Piece::Close => {
                self.settle(1);
                self.waiting.pop();
            }
        }
    }

    /// What stands between two parts: of two that bind alike the left one is
    /// settled first.
    fn between(&mut self, sign: Waiting) {
        self.settle(sign.strength());
        self.waiting.push(sign);
    }

    /// Settles what waits, from the latest on, and binds at least so tightly.
    fn settle(&mut self, least: usize) {
        while let Some(sign) = self.waiting.pop_if(|sign| sign.strength() >= least) {
            let said = self.settled(sign);
            self.said.push(said);
        }
    }

    fn settled(&mut self, sign: Waiting) -> Said {
        match sign {
            Waiting::Open => unreachable!("it binds less than anything settles"),
            Waiting::Compare(comparison) => {
                let (left, right) = in_order(|| self.operand());
                Said::Compared(left, comparison, right)
            }
            Waiting::Not => Said::Not(Box::new(self.condition())),
            Waiting::And => {
                let (left, right) = in_order(|| Box::new(self.condition()));
                Said::Both(left, right)
            }
            Waiting::Or => {
                let (left, right) = in_order(|| Box::new(self.condition()));
                Said::Either(left, right)
            }
        }
    }

    fn operand(&mut self) -> Operand {
        self.operands.pop().expect("the machine saw one")
    }

    fn condition(&mut self) -> Said {
        self.said.pop().expect("the machine saw one")
    }
}

/// The right one is the latest.
fn in_order<T>(mut latest: impl FnMut() -> T) -> (T, T) {
    let right = latest();
    let left = latest();
    (left, right)
}
