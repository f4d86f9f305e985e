//! Masks by both rules: all 16 combinations of generic bits as the mask came, by
//! mappings of every kind and by every way. Rule 2 joins "all" to 10000000 and
//! clears the generic bits; rule 1 does neither.

use super::masks::{all_bits_at_once, one_by_one};
use super::ways::{DOCUMENT_MAPPING, Way};
use super::{BOTH_RULES, KINDS, all_fitting, result};
use crate::cases::build::{EntryPlan, counting_guid, good_list, nt_sid};
use crate::computing::{Request, setting};
use crate::records::Case;

/// Some whose bits overlap, some that bring generic bits in: others than the one
/// that joins them, that one alone, all four.
const KINDS_OF_MAPPINGS: [[u32; 4]; 11] = [
    DOCUMENT_MAPPING,
    [0x0000_0001, 0x0000_0002, 0x0000_0004, 0x0000_0008],
    [0x0000_0003, 0x0000_0006, 0x0000_000C, 0x0800_0009],
    [0, 0, 0, 0],
    [u32::MAX, u32::MAX, u32::MAX, u32::MAX],
    [0x0000_0000, 0x0000_0000, 0x0000_0000, 0x0FFF_FFFF],
    [0x0FFF_0000, 0x00FF_F000, 0x000F_FF00, 0x0000_0000],
    [0x7000_0001, 0xB000_0002, 0xD000_0004, 0xE000_0008],
    [0x8000_0001, 0x4000_0002, 0x2000_0004, 0x1000_0008],
    [0x1000_0001, 0x1000_0002, 0x1000_0004, 0x0000_0008],
    [0xF000_0010, 0xF000_0020, 0xF000_0040, 0xF000_0080],
];
/// Plain, overlapping, all ones, and two that bring generic bits in.
const FOR_OBJECT_ENTRIES: [usize; 5] = [0, 2, 4, 7, 9];
/// What a computed list is computed with again.
const FOR_COMPUTED: [usize; 3] = [0, 7, 10];

const INHERIT_ONLY: u8 = 0x08;

pub fn cases() -> Vec<Case> {
    // The rule that they don't have among the other masks.
    let mut requests = one_by_one(1);
    requests.extend(all_bits_at_once(1));
    requests.extend(plain_entries());
    requests.extend(object_entries());
    requests.extend(computed_again());
    all_fitting(requests)
}

/// Each way by each rule that goes it.
fn ways_by_rules() -> Vec<(Way, usize)> {
    let mut all = Vec::new();
    for way in Way::ALL {
        let by_rule = |turn: usize| way.request(Vec::new(), turn).rule;
        let turns = (0..2).filter(|&turn| by_rule(turn) == BOTH_RULES[turn]);
        all.extend(turns.map(|turn| (way, turn)));
    }
    all
}

fn comes_from_a_parent(way: Way) -> bool {
    way.request(Vec::new(), 0).has(setting::PARENT) && !is_of_the_creator(way)
}

fn is_of_the_creator(way: Way) -> bool {
    matches!(way, Way::OwnByRule1 | Way::OwnByRule2 | Way::OwnAlone)
}

/// All 16 combinations, each beside other bits.
fn combinations() -> impl Iterator<Item = u32> {
    (0..16).map(|generic| generic << 28 | 0x0001_0000 << (generic % 8))
}

/// From the parent a container has each of them with IO and without; own and
/// default lists hold them so.
fn plain_entries() -> Vec<Request> {
    let of_flags = |flags: u8| {
        combinations().map(move |mask| EntryPlan {
            mask,
            ..EntryPlan::plain((mask >> 28) as u8 % 2, flags, nt_sid(&[]))
        })
    };
    let coming_down: Vec<EntryPlan> = of_flags(0x03).collect();
    let standing: Vec<EntryPlan> = of_flags(0x00).chain(of_flags(0x0B)).collect();
    let mut requests = Vec::new();
    for (way, turn) in ways_by_rules() {
        for mapping in KINDS_OF_MAPPINGS {
            let plans = match comes_from_a_parent(way) {
                true => &coming_down,
                false => &standing,
            };
            let request = way.request(good_list(plans), turn);
            requests.push(Request { mapping, ..request }.with(setting::CONTAINER));
        }
    }
    requests
}

/// Both types and all words. From the parent they come in the first part to what
/// is no container, and in the second part alone to a container.
fn object_entries() -> Vec<Request> {
    let of_kind = |way: Way, kind: u32| -> Vec<EntryPlan> {
        let plans = combinations().map(|mask| {
            let generic = (mask >> 28) as u8;
            let io = INHERIT_ONLY * (generic / 2 % 2);
            let (flags, word) = match comes_from_a_parent(way) {
                true if kind == 0 => (0x03 | io, 1),
                true => (0x01 | io, u32::from(generic) % 4),
                false => (io, u32::from(generic) % 4),
            };
            EntryPlan {
                mask,
                ..EntryPlan::object(5 + generic % 2, flags, word, nt_sid(&[]))
            }
        });
        plans.collect()
    };
    let mut requests = Vec::new();
    for (place, (way, turn)) in ways_by_rules().into_iter().enumerate() {
        for (at, mapping) in FOR_OBJECT_ENTRIES.into_iter().enumerate() {
            let kind = KINDS[(place + at) % 2];
            let request = way.request(good_list(&of_kind(way, kind)), turn).with(kind);
            requests.push(Request {
                mapping: KINDS_OF_MAPPINGS[mapping],
                types: counting_guid(0x40).to_vec(),
                ..request
            });
        }
    }
    requests
}

/// By rule 2, what either rule computed: a mask without generic bits stays, and
/// what rule 1 left is mended.
fn computed_again() -> Vec<Request> {
    let plans = combinations().map(|mask| EntryPlan {
        mask,
        ..EntryPlan::plain(0, 0x03, nt_sid(&[]))
    });
    let list = good_list(&plans.collect::<Vec<EntryPlan>>());
    let mut requests = Vec::new();
    for mapping in FOR_COMPUTED.map(|place| KINDS_OF_MAPPINGS[place]) {
        for rule in BOTH_RULES {
            let request = Way::DefaultList.request(list.clone(), 0).with_rule(rule);
            let computed = result(&Request { mapping, ..request });
            for way in [
                Way::ParentAlone,
                Way::ParentByRule2,
                Way::OwnAlone,
                Way::DefaultList,
            ] {
                let request = way.request(computed.clone(), 1);
                requests.push(Request { mapping, ..request });
            }
        }
    }
    requests
}

#[cfg(test)]
mod tests {
    use super::*;
    use crate::ace::GENERIC;
    use crate::computing::{Branch, try_compute};
    use crate::list::List;
    use crate::records::fresh_room;
    use std::collections::BTreeSet;

    fn done() -> Vec<(Request, Branch)> {
        let requests = cases().into_iter().map(|case| match case {
            Case::Compute { request, room } => (request, room),
            _ => unreachable!("they are computations"),
        });
        requests
            .map(|(request, room)| {
                let done = try_compute(&request, &mut fresh_room(room)).unwrap();
                (request, done.branch)
            })
            .collect()
    }

    /// The combinations as they came, with IO or without in the result, plain
    /// or not: the result has them in the order of the list given.
    fn met(request: &Request) -> Vec<(u32, bool, bool)> {
        let given = [&request.parent, &request.creator, &request.default_list];
        let longest = given.into_iter().max_by_key(|list| list.len()).unwrap();
        let came = masks(longest).map(|(mask, ..)| mask >> 28);
        let came: Vec<u32> = came.collect();
        let result = result(request);
        let in_turn = came.into_iter().cycle().zip(masks(&result));
        in_turn
            .map(|(generic, (_, io, is_object))| (generic, io, is_object))
            .collect()
    }

    /// Mask, IO and whether it is an object entry.
    fn masks(list: &[u8]) -> impl Iterator<Item = (u32, bool, bool)> {
        let entries = List::parse(list).unwrap().entries.into_iter();
        entries.map(|entry| {
            let io = entry.flags & INHERIT_ONLY != 0;
            (entry.mask, io, entry.entry_type.is_object())
        })
    }

    #[test]
    fn every_mapping_meets_every_branch_by_every_rule_that_goes_it() {
        let all = done();
        for mapping in KINDS_OF_MAPPINGS {
            let by: BTreeSet<(Branch, u32)> = all
                .iter()
                .filter(|(request, _)| request.mapping == mapping)
                .map(|(request, branch)| (*branch, request.rule))
                .collect();
            // Three rows by both rules, and the two that have a rule of their own.
            assert_eq!(by.len(), 8, "{mapping:08X?}");
        }
    }

    #[test]
    fn every_combination_comes_with_io_and_without_plain_and_not() {
        let all = done();
        for branch in [Branch::ParentAlone, Branch::DefaultList, Branch::OwnEntries] {
            for rule in BOTH_RULES {
                let of_branch = all
                    .iter()
                    .filter(|(request, by)| *by == branch && request.rule == rule);
                let met: BTreeSet<_> = of_branch.flat_map(|(request, _)| met(request)).collect();
                let count = |io: bool, is_object: bool| {
                    let of_kind = met.iter().filter(|met| (met.1, met.2) == (io, is_object));
                    of_kind.count()
                };
                assert_eq!((count(false, false), count(true, false)), (16, 16));
                assert_eq!(
                    count(false, true) + count(true, true),
                    if branch == Branch::ParentAlone {
                        32
                    } else {
                        16
                    }
                );
            }
        }
    }

    /// Rule 1 leaves all that came.
    #[test]
    fn generic_bits_go_by_rule_2_alone() {
        let left = |rule| {
            let all = done().into_iter();
            let by_rule = all.filter(|(request, _)| request.rule == rule);
            let results = by_rule.map(|(request, _)| result(&request));
            results
                .filter(|list| masks(list).any(|(mask, ..)| mask & GENERIC != 0))
                .count()
        };
        assert!(left(1) >= 100, "{}", left(1));
        assert_eq!(left(2), 0);
    }

    #[test]
    fn they_are_moderate() {
        let cases = cases();
        assert!(cases.len() <= 410, "{}", cases.len());
        let rooms = cases.iter().map(|case| match case {
            Case::Compute { room, .. } => *room,
            _ => 0,
        });
        // So that answers show all bytes.
        assert!(rooms.max() <= Some(1_024));
    }
}
