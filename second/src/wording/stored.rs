//! The stored form of what a text says: each operator behind its operands, as
//! they stand in the text.

use super::{Operand, Said};
use crate::condition::{Comparison, SIGNATURE, code};

/// Of integers: no sign is told, and the base is ten.
const SIGN: u8 = 3;
const BASE: u8 = 2;

#[derive(Clone, Debug, PartialEq, Eq)]
pub struct Stored {
    pub bytes: Vec<u8>,
    pub tokens: usize,
    /// The most that stand at once, where the tokens are gone through.
    pub depth: usize,
    /// How many stand behind the last token.
    standing: usize,
}

impl Stored {
    pub fn of(said: &Said) -> Stored {
        let mut stored = Stored {
            bytes: SIGNATURE.to_vec(),
            tokens: 0,
            depth: 0,
            standing: 0,
        };
        stored.put_said(said);
        stored
    }

    fn put_said(&mut self, said: &Said) {
        match said {
            Said::Compared(left, comparison, right) => {
                self.put_operand(left);
                self.put_operand(right);
                self.put(&[byte_of(*comparison)], 2);
            }
            Said::Not(part) => {
                self.put_said(part);
                self.put(&[code::NOT], 1);
            }
            Said::Both(left, right) => self.put_two(left, right, code::AND),
            Said::Either(left, right) => self.put_two(left, right, code::OR),
        }
    }

    fn put_two(&mut self, left: &Said, right: &Said, operator: u8) {
        self.put_said(left);
        self.put_said(right);
        self.put(&[operator], 2);
    }

    fn put_operand(&mut self, operand: &Operand) {
        let token = match operand {
            Operand::Integer(value) => {
                [&[code::LITERAL], &value.to_le_bytes()[..], &[SIGN, BASE]].concat()
            }
            Operand::Name(name) => {
                let units: Vec<u8> = name.encode_utf16().flat_map(u16::to_le_bytes).collect();
                let length = units.len() as u32;
                [&[code::NAME], &length.to_le_bytes()[..], &units].concat()
            }
        };
        self.put(&token, 0);
    }

    /// A token takes so many of those that stand, and stands in their place.
    fn put(&mut self, token: &[u8], takes: usize) {
        self.bytes.extend(token);
        self.tokens += 1;
        self.standing = self.standing - takes + 1;
        self.depth = self.depth.max(self.standing);
    }
}

fn byte_of(comparison: Comparison) -> u8 {
    match comparison {
        Comparison::Equal => 0x80,
        Comparison::NotEqual => 0x81,
        Comparison::Less => 0x82,
        Comparison::LessOrEqual => 0x83,
        Comparison::Greater => 0x84,
        Comparison::GreaterOrEqual => 0x85,
    }
}
