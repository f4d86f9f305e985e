//! Entries that are much alike: the same but for one bit or byte, for their
//! size, or for how they say the same.

use super::make::{both_ways, entry, fitting};
use crate::cases::build::{EntryPlan, SHAPES, counting_guid, creator_sid, list_of, nt_sid};
use crate::cases::condition::make::{
    EQUAL, both, compared, exists, literal, literal_written, name, negated, some_expression, stored,
};
use crate::list::List;
use crate::records::Case;
use crate::sidebyside::Lists;

pub fn cases() -> Vec<Case> {
    let mut pairs = Vec::new();
    for plan in subjects() {
        pairs.extend(one_bit(&plan));
    }
    pairs.extend(other_sizes());
    pairs.extend(other_shapes());
    pairs.extend(other_expressions());
    fitting(pairs)
}

/// An entry of each kind.
fn subjects() -> [EntryPlan; 3] {
    [
        EntryPlan::plain(0, 0x03, creator_sid(0)),
        EntryPlan::object(6, 0x10, 1, nt_sid(&[])),
        EntryPlan::conditional(9, 0, nt_sid(&[18]), stored(exists("a"))),
    ]
}

/// Alone, before another entry that is the same, and behind one.
fn beside(one: &[u8], other: &[u8], turn: usize) -> Lists {
    let laid = |middle: &[u8]| {
        let middle = middle.to_vec();
        let entries = match turn % 3 {
            0 => vec![middle],
            1 => vec![middle, entry('a')],
            _ => vec![entry('b'), middle],
        };
        list_of(4, &entries)
    };
    (laid(one), laid(other))
}

/// One bit of each byte, where the entry is still good.
fn one_bit(plan: &EntryPlan) -> Vec<Lists> {
    let good = plan.bytes();
    let mut pairs = Vec::new();
    for at in 0..good.len() {
        for bit in [at % 8, (at + 4) % 8] {
            let mut near = good.clone();
            near[at] ^= 1 << bit;
            let lists = beside(&good, &near, at);
            if List::parse(&lists.1).is_ok() {
                pairs.push(lists);
            }
        }
    }
    pairs
}

/// SIDs of which one begins the other, alone and both in one list.
fn other_sizes() -> Vec<Lists> {
    let numbers = [21, 1, 2, 3, 4];
    let with = |count: usize| EntryPlan::plain(0, 0, nt_sid(&numbers[..count])).bytes();
    let mut pairs = Vec::new();
    for one in 0..=5 {
        for other in (0..=5).filter(|&other| other != one) {
            pairs.push(beside(&with(one), &with(other), one));
            let both = [with(one), with(other)];
            let turned = [with(other), with(one)];
            pairs.push((list_of(2, &both), list_of(2, &turned)));
        }
    }
    pairs
}

/// Every type and word against every other, under one SID; the GUIDs changed
/// and their places too.
fn other_shapes() -> Vec<Lists> {
    let shaped = |(entry_type, word)| EntryPlan::object(entry_type, 0, word, nt_sid(&[]));
    let mut pairs = Vec::new();
    for (turn, one) in SHAPES.into_iter().enumerate() {
        for other in SHAPES.into_iter().filter(|&other| other != one) {
            pairs.push(beside(&shaped(one).bytes(), &shaped(other).bytes(), turn));
        }
    }
    for word in 1..4 {
        let plan = shaped((5, word));
        let turned = EntryPlan {
            guids: [plan.guids[1], plan.guids[0]],
            ..plan.clone()
        };
        let changed = EntryPlan {
            guids: [0x41, 0x51].map(counting_guid),
            ..plan.clone()
        };
        for other in [turned, changed] {
            pairs.extend(both_ways(beside(&plan.bytes(), &other.bytes(), 0)));
        }
    }
    pairs
}

/// What comes to the same isn't the same where its bytes differ.
fn other_expressions() -> Vec<Lists> {
    let is_one = |sign, base| compared(name("a"), EQUAL, literal_written(1, sign, base));
    let expressions = [
        some_expression(),
        stored(exists("a")),
        stored(negated(exists("a"), 2)),
        stored(negated(exists("a"), 4)),
        stored(both(exists("a"), exists("a"))),
        stored(is_one(3, 2)),
        stored(is_one(1, 2)),
        stored(is_one(3, 1)),
        stored(compared(literal(1), EQUAL, name("a"))),
    ];
    let conditional =
        |expression: &Vec<u8>| EntryPlan::conditional(9, 0, nt_sid(&[]), expression.clone());
    let mut pairs = Vec::new();
    for (turn, one) in expressions.iter().enumerate() {
        for other in &expressions {
            let [one, other] = [one, other].map(|one| conditional(one).bytes());
            pairs.push(beside(&one, &other, turn));
        }
        // The same expression in an allow and in a deny, and no expression.
        let [allow, deny] = [9, 10].map(|entry_type| EntryPlan {
            entry_type,
            ..conditional(one)
        });
        pairs.extend(both_ways(beside(&allow.bytes(), &deny.bytes(), turn)));
        let plain = EntryPlan::plain(0, 0, nt_sid(&[])).bytes();
        pairs.extend(both_ways(beside(&allow.bytes(), &plain, turn)));
    }
    pairs
}
