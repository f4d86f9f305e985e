//! What conditions come to.

use super::make::{
    EQUAL, both, by_nothing, compared, either, evaluate, exists, exists_of, literal,
    literal_written, name, name_of, not, of_truth, of_truth_compared, record_of, stored, table,
    units,
};
use crate::condition::{Truth, code};
use crate::records::Case;

pub fn cases() -> Vec<Case> {
    let mut cases = of_two();
    cases.extend(of_three());
    cases.extend(comparisons());
    cases.extend(missing_names());
    cases.extend(names_as_bytes());
    cases.extend(by_the_document());
    cases
}

/// The tables of and, or and not, whole, by each way to come to a truth.
fn of_two() -> Vec<Case> {
    let mut cases = Vec::new();
    for of_left in [of_truth, of_truth_compared] {
        for left in Truth::ALL {
            cases.push(by_nothing(of_left(left)));
            cases.push(by_nothing(not(of_left(left))));
            for of_right in [of_truth, of_truth_compared] {
                for right in Truth::ALL {
                    cases.push(by_nothing(both(of_left(left), of_right(right))));
                    cases.push(by_nothing(either(of_left(left), of_right(right))));
                }
            }
        }
    }
    cases
}

type Join = fn(Vec<u8>, Vec<u8>) -> Vec<u8>;

/// From the left and from the right, with a not in the middle at times.
fn of_three() -> Vec<Case> {
    let joins: [Join; 2] = [both, either];
    let mut cases = Vec::new();
    for (turn, [first, second, third]) in triples().into_iter().enumerate() {
        let [first, second, third] = [first, second, third].map(of_truth);
        for join in joins {
            for other in joins {
                let from_left = join(first.clone(), second.clone());
                let from_right = join(second.clone(), third.clone());
                let (from_left, from_right) = match turn % 2 {
                    0 => (from_left, from_right),
                    _ => (not(from_left), not(from_right)),
                };
                cases.push(by_nothing(other(from_left, third.clone())));
                cases.push(by_nothing(other(first.clone(), from_right)));
            }
        }
    }
    cases
}

fn triples() -> Vec<[Truth; 3]> {
    let mut triples = Vec::new();
    for first in Truth::ALL {
        for second in Truth::ALL {
            triples.extend(Truth::ALL.map(|third| [first, second, third]));
        }
    }
    triples
}

/// The ends of 64 bits, and what 32 bits or no sign would take for others.
const NUMBERS: [i64; 10] = [
    i64::MIN,
    i64::MIN + 1,
    -0x1_0000_0000,
    -1,
    0,
    1,
    0x8000_0000,
    0x1_0000_0000,
    i64::MAX - 1,
    i64::MAX,
];

/// Every pair of numbers by every comparison; literals and names in turn.
fn comparisons() -> Vec<Case> {
    let mut cases = Vec::new();
    for (turn, left) in NUMBERS.into_iter().enumerate() {
        for (other_turn, right) in NUMBERS.into_iter().enumerate() {
            for comparison in code::COMPARISONS {
                let table = table(&[("a", left), ("b", right)]);
                let (left, right) = match (turn + other_turn) % 4 {
                    0 => (literal(left), name("b")),
                    1 => (name("a"), literal(right)),
                    2 => (literal(left), literal_written(right, 1, 3)),
                    _ => (name("a"), name("b")),
                };
                let tokens = compared(left, comparison, right);
                cases.push(evaluate(stored(tokens), table));
            }
        }
    }
    cases
}

/// On either side of every comparison, and of Exists.
fn missing_names() -> Vec<Case> {
    let mut cases = Vec::new();
    for table in [table(&[]), table(&[("a", 5)]), table(&[("c", 5), ("a", 5)])] {
        for comparison in code::COMPARISONS {
            for (left, right) in [
                (name("a"), literal(5)),
                (literal(5), name("a")),
                (name("a"), name("b")),
                (name("b"), name("a")),
                (name("b"), name("b")),
                (name("a"), name("a")),
                (name("b"), name("d")),
            ] {
                let tokens = compared(left, comparison, right);
                cases.push(evaluate(stored(tokens), table.clone()));
            }
        }
        for text in ["a", "b", "c"] {
            cases.push(evaluate(stored(exists(text)), table.clone()));
            cases.push(evaluate(stored(not(exists(text))), table.clone()));
        }
    }
    cases
}

/// Names that begin others, end others, differ in one bit, in their case or
/// in their length; odd names are asked for by their bytes.
fn names_as_bytes() -> Vec<Case> {
    let asked = units("level");
    let mut near: Vec<Vec<u8>> = ["level", "Level", "leve", "levels", "evel", "", "l"]
        .map(units)
        .to_vec();
    near.extend((0..asked.len()).map(|at| {
        let mut changed = asked.clone();
        changed[at] ^= 1;
        changed
    }));
    near.push(asked.iter().rev().copied().collect());
    near.push(b"level\0".to_vec());
    near.retain(|name| !name.is_empty());
    let mut cases = Vec::new();
    for name in near {
        let table = record_of(&name, 3);
        let tokens = compared(name_of(&asked), EQUAL, literal(3));
        cases.push(evaluate(stored(tokens), table.clone()));
        cases.push(evaluate(stored(exists_of(&name)), record_of(&asked, 3)));
        cases.push(evaluate(stored(exists("level")), table));
    }
    cases
}

/// Level at least 3, alone and with what it is joined to.
fn by_the_document() -> Vec<Case> {
    let level = || compared(name("level"), code::COMPARISONS[5], literal(3));
    let site = || compared(name("site"), code::COMPARISONS[0], literal(-7));
    let conditions = [
        level(),
        both(level(), site()),
        either(level(), site()),
        not(both(level(), not(site()))),
        both(exists("level"), level()),
        either(not(exists("level")), level()),
    ];
    let tables = [
        table(&[]),
        table(&[("level", 2)]),
        table(&[("level", 3)]),
        table(&[("level", i64::MIN)]),
        table(&[("site", -7)]),
        table(&[("site", 7)]),
        table(&[("level", 4), ("site", -7)]),
        table(&[("site", -8), ("level", 4)]),
        table(&[("site", -7), ("level", 1)]),
        table(&[("site", 0), ("level", 0)]),
    ];
    let mut cases = Vec::new();
    for condition in conditions {
        for table in &tables {
            cases.push(evaluate(stored(condition.clone()), table.clone()));
        }
    }
    cases
}
