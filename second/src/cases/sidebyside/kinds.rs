//! Object entries and conditional ones, beside each other and beside plain
//! ones, and random entries of all kinds.

use super::make::{both_ways, entry, fitting};
use crate::cases::build::{EntryPlan, list_of, nt_sid, random_list};
use crate::cases::condition::fresh::Attributes;
use crate::cases::condition::make::{exists, some_expression, stored};
use crate::list::List;
use crate::random::Random;
use crate::records::Case;
use crate::sidebyside::Lists;

pub fn cases(random: &mut Random) -> Vec<Case> {
    let mut pairs = every_order();
    pairs.extend(under_revision_2());
    pairs.extend(random_ones(random));
    fitting(pairs)
}

/// Plain, object and conditional.
fn of_each_kind() -> [Vec<u8>; 3] {
    let object = EntryPlan::object(5, 0x02, 3, nt_sid(&[18]));
    let conditional = EntryPlan::conditional(9, 0x03, nt_sid(&[]), some_expression());
    [entry('a'), object.bytes(), conditional.bytes()]
}

/// The three in every order against every order, and without one of them.
fn every_order() -> Vec<Lists> {
    let orders = [
        &[0, 1, 2][..],
        &[0, 2, 1],
        &[1, 0, 2],
        &[1, 2, 0],
        &[2, 0, 1],
        &[2, 1, 0],
        &[1, 2],
        &[2, 2, 1, 1],
        &[],
    ];
    let laid = |order: &[usize]| {
        let of_each_kind = of_each_kind();
        let entries: Vec<Vec<u8>> = order
            .iter()
            .map(|&kind| of_each_kind[kind].clone())
            .collect();
        list_of(4, &entries)
    };
    let mut pairs = Vec::new();
    for first in orders {
        for second in orders {
            pairs.push((laid(first), laid(second)));
        }
    }
    pairs
}

/// Conditional entries stand under either revision, object entries are refused
/// under 2.
fn under_revision_2() -> Vec<Lists> {
    let [plain, object, conditional] = of_each_kind();
    let other = EntryPlan::conditional(10, 0, nt_sid(&[]), stored(exists("b"))).bytes();
    let mut pairs = Vec::new();
    for entries in [
        vec![conditional.clone()],
        vec![conditional.clone(), plain.clone()],
        vec![other.clone(), conditional.clone()],
        vec![object, conditional.clone()],
    ] {
        let second = [conditional.clone(), other.clone(), plain.clone()];
        for (one, two) in [(2, 2), (2, 4), (4, 2)] {
            let lists = (list_of(one, &entries), list_of(two, &second));
            pairs.extend(both_ways(lists));
        }
    }
    pairs
}

/// A list with conditions in it, without one entry or in another order.
fn random_ones(random: &mut Random) -> Vec<Lists> {
    let mut pairs = Vec::new();
    for turn in 0..60 {
        let count = 1 + turn % 8;
        let list = random_list(random, 4, count);
        let attributes = Attributes::few();
        let list = attributes.under_conditions(random, &list, 6);
        let parsed = List::parse(&list).expect("it is good");
        let mut entries: Vec<Vec<u8>> = parsed
            .entries
            .iter()
            .map(|entry| entry.bytes.to_vec())
            .collect();
        let at = random.below(count);
        match turn % 3 {
            0 => {
                entries.remove(at);
            }
            1 => entries.rotate_left(at),
            _ => entries.insert(at, entries[random.below(count)].clone()),
        }
        pairs.extend(both_ways((list.clone(), list_of(4, &entries))));
    }
    pairs
}
