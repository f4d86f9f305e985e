//! Every operator with every kind of operand, and with too few of them.

use super::make::{both, by_nothing, exists, literal, name};
use crate::condition::code;
use crate::records::Case;

pub fn cases() -> Vec<Case> {
    let mut cases = Vec::new();
    for operator in operators() {
        for operands in operands() {
            let tokens = [operands, vec![operator]].concat();
            cases.push(by_nothing(tokens.clone()));
            // What is missing isn't taken from a condition that stands below.
            cases.push(by_nothing(both(exists("b"), tokens)));
        }
    }
    cases.extend(operands().into_iter().map(by_nothing));
    cases
}

fn operators() -> Vec<u8> {
    let others = [code::EXISTS, code::AND, code::OR, code::NOT];
    code::COMPARISONS.into_iter().chain(others).collect()
}

/// None, one, two of each kind, and three.
fn operands() -> Vec<Vec<u8>> {
    let kinds = [literal(7), name("a"), exists("a")];
    let mut operands = vec![Vec::new()];
    operands.extend(kinds.clone());
    for left in &kinds {
        for right in &kinds {
            operands.push([&left[..], right].concat());
        }
    }
    operands.extend(kinds.map(|kind| kind.repeat(3)));
    operands
}
