//! At most 64 tokens, and at most 16 on the stack.

use super::make::{
    EQUAL, both, by_nothing, compared, either, evaluate, exists, exists_of, literal, negated,
    of_truth, of_truth_compared, stored,
};
use crate::condition::{Truth, code};
use crate::records::{Case, LONGEST_EXPRESSION};

pub fn cases() -> Vec<Case> {
    let mut cases = side_by_side();
    cases.extend(one_by_one());
    cases.extend(many_tokens());
    cases.extend(kinds_at_every_depth());
    cases.extend(values_at_every_depth());
    cases.push(longest());
    cases
}

/// So many conditions, then the operators that join them: as deep as the last
/// condition on the others.
fn joined(conditions: &[Vec<u8>], operator: u8) -> Vec<u8> {
    let operators = vec![operator; conditions.len().saturating_sub(1)];
    [conditions.concat(), operators].concat()
}

/// By Exists as deep as there are conditions, by comparisons one deeper.
fn side_by_side() -> Vec<Case> {
    let mut cases = Vec::new();
    for count in 1..=21 {
        for operator in [code::AND, code::OR] {
            let by_exists = vec![of_truth(Truth::False); count];
            let compared = vec![of_truth_compared(Truth::True); count];
            cases.push(by_nothing(joined(&by_exists, operator)));
            cases.push(by_nothing(joined(&compared, operator)));
        }
    }
    // The deepest is a comparison above the others, and above operands.
    for count in 12..=17 {
        let mut conditions = vec![exists("a"); count];
        conditions.push(of_truth_compared(Truth::True));
        cases.push(by_nothing(joined(&conditions, code::OR)));
        let operands = vec![literal(1); count];
        cases.push(by_nothing(
            [operands.concat(), vec![EQUAL; count - 1]].concat(),
        ));
        // At its deepest only for a while.
        let deep = joined(&conditions, code::AND);
        cases.push(by_nothing(either(exists("b"), deep.clone())));
        cases.push(by_nothing(either(deep, exists("b"))));
    }
    cases
}

/// Never more than two or three deep, however many.
fn one_by_one() -> Vec<Case> {
    let mut cases = Vec::new();
    for condition in [exists("a"), of_truth_compared(Truth::True)] {
        for count in [14, 15, 16, 17, 21, 22] {
            let joined = (1..count).fold(condition.clone(), |all, _| both(all, condition.clone()));
            cases.push(by_nothing(joined));
        }
    }
    cases
}

/// By many nots, and by conditions that are 16 deep.
fn many_tokens() -> Vec<Case> {
    let mut cases = Vec::new();
    for tokens in 60..=68 {
        let by_exists = negated(exists("a"), tokens - 2);
        let compared = negated(of_truth_compared(Truth::Unknown), tokens - 3);
        // 15 comparisons side by side and what joins them have 59.
        let deep = joined(&vec![of_truth_compared(Truth::True); 15], code::AND);
        let deep = negated(deep, tokens - 59);
        cases.extend([by_exists, compared, deep].map(by_nothing));
    }
    // Literals alone, and operators alone.
    for tokens in [15, 16, 17, 63, 64, 65] {
        cases.push(by_nothing(literal(1).repeat(tokens)));
        cases.push(by_nothing(vec![code::NOT; tokens]));
    }
    // An unknown token or a zero behind 64 of them.
    for last in [0xFF, code::PADDING, code::NOT, code::LITERAL] {
        let tokens = negated(exists("a"), 62);
        cases.push(by_nothing([tokens, vec![last]].concat()));
    }
    cases
}

/// One of many conditions is a literal instead.
fn kinds_at_every_depth() -> Vec<Case> {
    let mut cases = Vec::new();
    for count in [2, 3, 15, 16] {
        for wrong in 0..count {
            let mut conditions = vec![exists("a"); count];
            conditions[wrong] = literal(1);
            cases.push(by_nothing(joined(&conditions, code::AND)));
        }
    }
    cases
}

/// Of many conditions one decides: true among false ones joined by or, false
/// among true ones joined by and, and unknown among either.
fn values_at_every_depth() -> Vec<Case> {
    let mut cases = Vec::new();
    for at in 0..15 {
        for (one, others, operator) in [
            (Truth::True, Truth::False, code::OR),
            (Truth::False, Truth::True, code::AND),
            (Truth::Unknown, Truth::False, code::OR),
            (Truth::Unknown, Truth::True, code::AND),
        ] {
            let mut conditions = vec![of_truth(others); 15];
            conditions[at] = of_truth(one);
            cases.push(by_nothing(joined(&conditions, operator)));
        }
        // Two operands that differ, above so many conditions.
        let mut conditions = vec![exists("a"); at];
        conditions.push(compared(literal(1), code::COMPARISONS[2], literal(2)));
        cases.push(by_nothing(joined(&conditions, code::OR)));
    }
    cases
}

/// A name as long as these cases hold.
fn longest() -> Case {
    let name = vec![0x61; LONGEST_EXPRESSION - 4 - 5 - 1];
    evaluate(stored(exists_of(&name)), Vec::new())
}
