//! Random expressions and tables that have to do with each other: few names,
//! of which some begin others, and few numbers.

use super::damage;
use super::make::{evaluate, literal_written, name_of, padded, record_of, stored, units};
use crate::ace::Ace;
use crate::cases::build::{list_of, with_spare};
use crate::condition::{MOST_DEPTH, MOST_NAMES, MOST_TOKENS, code};
use crate::list::{Entry, EntryType, List};
use crate::random::Random;
use crate::records::Case;

const STORED: usize = 250;
/// Of a list that is handed in.
const LONGEST_LIST: usize = 65_535;

/// As many good ones, and as many of which one part is damaged.
pub fn cases(random: &mut Random) -> Vec<Case> {
    let mut cases = Vec::new();
    for turn in 0..STORED {
        let attributes = Attributes::draw(random);
        let mut expression = attributes.expression(random);
        let mut table = attributes.table(random);
        cases.push(evaluate(expression.clone(), table.clone()));
        match turn % 3 {
            0 => damage::table(random, &mut table),
            _ => damage::expression(random, &mut expression),
        }
        cases.push(evaluate(expression, table));
    }
    cases
}

/// What an expression and a table draw from.
pub struct Attributes {
    names: Vec<Vec<u8>>,
    numbers: Vec<i64>,
}

impl Attributes {
    pub fn draw(random: &mut Random) -> Attributes {
        let count = match random.below(16) {
            0 => 30 + random.below(10),
            1 => random.below(30) + 1,
            _ => 1 + random.below(5),
        };
        let mut names: Vec<Vec<u8>> = (0..count).map(|_| some_name(random)).collect();
        names.sort();
        names.dedup();
        Attributes {
            names,
            numbers: (0..1 + random.below(3)).map(|_| number(random)).collect(),
        }
    }

    /// Always the same few.
    pub fn few() -> Attributes {
        Attributes {
            names: ["a", "ab", "b"].map(units).to_vec(),
            numbers: vec![-1, 0, 3],
        }
    }

    /// A good list with some of its plain entries under conditions of up to so
    /// many tokens, at least two; one that is refused as it is. So is one that
    /// would grow too long.
    pub fn under_conditions(&self, random: &mut Random, list: &[u8], most: usize) -> Vec<u8> {
        let Ok(parsed) = List::parse(list) else {
            return list.to_vec();
        };
        let mut under_condition = |entry: &Entry| {
            let entry_type = match entry.entry_type {
                EntryType::Allow => EntryType::ConditionalAllow,
                EntryType::Deny => EntryType::ConditionalDeny,
                _ => return entry.bytes.to_vec(),
            };
            if random.chance(1, 3) {
                return entry.bytes.to_vec();
            }
            let tokens = 2 + random.below(most - 1);
            let ace = Ace {
                entry_type,
                expression: padded(self.of_size(random, tokens, MOST_DEPTH)),
                ..Ace::from(entry)
            };
            ace.bytes()
        };
        let entries: Vec<Vec<u8>> = parsed.entries.iter().map(&mut under_condition).collect();
        let changed = with_spare(&list_of(list[0], &entries), &list[parsed.end..]);
        if changed.len() > LONGEST_LIST {
            return list.to_vec();
        }
        changed
    }

    /// Good, with zeros up to a multiple of four or without.
    pub fn expression(&self, random: &mut Random) -> Vec<u8> {
        let expression = self.unpadded(random);
        match random.below(2) {
            0 => padded(expression),
            _ => expression,
        }
    }

    /// Good, with no zeros; now and then as long and as deep as may be.
    pub fn unpadded(&self, random: &mut Random) -> Vec<u8> {
        let tokens = match random.below(16) {
            0 => MOST_TOKENS,
            1 => MOST_TOKENS - random.below(20),
            2..5 => 2 + random.below(MOST_TOKENS - 1),
            _ => 2 + random.below(12),
        };
        self.of_size(random, tokens, MOST_DEPTH)
    }

    /// So many tokens, at least two, and at most so deep. Over the limits it
    /// isn't acceptable.
    pub fn of_size(&self, random: &mut Random, tokens: usize, depth: usize) -> Vec<u8> {
        let lean = *random.pick(&Lean::ALL);
        let mut out = Vec::new();
        self.condition(random, tokens, depth, lean, &mut out);
        stored(out)
    }

    fn condition(
        &self,
        random: &mut Random,
        tokens: usize,
        depth: usize,
        lean: Lean,
        out: &mut Vec<u8>,
    ) {
        let may_be_joined = tokens >= 5 && depth >= 2;
        if tokens == 2 {
            out.extend(self.name(random));
            out.push(code::EXISTS);
        } else if tokens == 3 && depth >= 2 && random.chance(5, 6) {
            out.extend(self.operand(random));
            out.extend(self.operand(random));
            out.push(*random.pick(&code::COMPARISONS));
        } else if may_be_joined && random.chance(7, 8) {
            let left = lean.left_part(random, tokens - 1);
            self.condition(random, left, depth, lean, out);
            self.condition(random, tokens - 1 - left, depth - 1, lean, out);
            out.push(*random.pick(&[code::AND, code::OR]));
        } else {
            self.condition(random, tokens - 1, depth, lean, out);
            out.push(code::NOT);
        }
    }

    fn operand(&self, random: &mut Random) -> Vec<u8> {
        if random.chance(1, 2) {
            return self.name(random);
        }
        let [sign, base] = [0; 2].map(|_: u8| 1 + random.below(3) as u8);
        literal_written(self.number(random), sign, base)
    }

    fn name(&self, random: &mut Random) -> Vec<u8> {
        match random.below(12) {
            0 => name_of(&some_name(random)),
            _ => name_of(random.pick(&self.names).as_slice()),
        }
    }

    fn number(&self, random: &mut Random) -> i64 {
        match random.below(8) {
            0 => number(random),
            1 => random.pick(&self.numbers).wrapping_add(1),
            _ => *random.pick(&self.numbers),
        }
    }

    /// Well made, with most of the names, in any order.
    pub fn table(&self, random: &mut Random) -> Vec<u8> {
        let mut names: Vec<&Vec<u8>> = self.names.iter().collect();
        match random.below(8) {
            0 => names.clear(),
            1..3 => {}
            _ => names.retain(|_| random.chance(3, 4)),
        }
        for at in (1..names.len()).rev() {
            names.swap(at, random.below(at + 1));
        }
        names.truncate(MOST_NAMES);
        let records = names.into_iter();
        records
            .flat_map(|name| record_of(name, self.number(random)))
            .collect()
    }
}

/// Where the tokens of a joined condition are.
#[derive(Clone, Copy)]
enum Lean {
    /// Shallow.
    Left,
    /// Deep.
    Right,
    Either,
}

impl Lean {
    const ALL: [Lean; 4] = [Lean::Left, Lean::Right, Lean::Either, Lean::Either];

    /// How many of the tokens the left part has; each has at least two.
    fn left_part(self, random: &mut Random, tokens: usize) -> usize {
        let most = tokens - 2;
        let few = (2 + random.below(2)).min(most);
        match self {
            Lean::Left => tokens - few,
            Lean::Right => few,
            Lean::Either => 2 + random.below(most - 1),
        }
    }
}

const SPELLED: [&str; 4] = ["level", "site", "crew", "Level"];

/// Of one to three letters out of three, so that many begin others; some of
/// any bytes, and a few that are long.
fn some_name(random: &mut Random) -> Vec<u8> {
    let length = 1 + random.below(3);
    match random.below(40) {
        0 => random.bytes(2 * length),
        1 => units(SPELLED[random.below(SPELLED.len())]),
        2 => {
            let length = 1 + random.below(40);
            [b'a', 0].repeat(length)
        }
        _ => (0..length)
            .flat_map(|_| [*random.pick(b"abc"), 0])
            .collect(),
    }
}

fn number(random: &mut Random) -> i64 {
    match random.below(6) {
        0 => *random.pick(&[i64::MIN, i64::MIN + 1, -1, 0, 1, i64::MAX - 1, i64::MAX]),
        1 => random.draw() as i64,
        2 => 1 << random.below(64),
        _ => random.below(6) as i64 - 2,
    }
}
