//! Trees of other shapes: roots that are no container, everything undone and
//! begun again, siblings, object types, placeholders, masks, empty lists.

use super::make::{
    CONTAINER, LEAF, PROTECTED, below, of_creator, one_entry, remove_list, root, set_list,
    set_mark, set_owner, start, system,
};
use super::sequence::Sequence;
use crate::cases::build::{
    EntryPlan, counting_guid, creator_sid, good_list, list_of_plans, nt_sid,
};
use crate::tree::{Add, Call, Part, Start};

pub fn sequences() -> Vec<Vec<Call>> {
    let mut sequences = Vec::new();
    for rule in [1, 2] {
        for list in [None, Some(of_creator(0x03)), Some(good_list(&[]))] {
            sequences.push(a_root_that_is_no_container(rule, list));
        }
        sequences.push(all_undone(rule));
        sequences.push(siblings(rule));
        sequences.push(types(rule));
        sequences.push(types_down_a_chain(rule));
        sequences.push(placeholders(rule));
        sequences.push(masks(rule));
        sequences.push(empty_lists(rule, None));
        sequences.push(empty_lists(rule, Some(of_creator(0x03))));
        sequences.push(not_applying(rule));
        sequences.push(inherited_entries_given(rule));
        sequences.push(every_flag(rule, CONTAINER));
        sequences.push(every_flag(rule, LEAF));
        sequences.push(revisions(rule));
    }
    sequences
}

fn a_root_that_is_no_container(rule: u32, list: Option<Vec<u8>>) -> Vec<Call> {
    let mut sequence = Sequence::started(start(3, 3).with_rule(rule));
    let mut add = root(LEAF | PROTECTED);
    if let Some(list) = list {
        add = add.with_list(list);
    }
    sequence.add(add);
    sequence.add(below(0, LEAF));
    sequence.add(below(0, CONTAINER));
    sequence.add(root(CONTAINER));
    sequence.everything();
    sequence.change(set_list(0, one_entry(0x03, 2)));
    sequence.everything();
    sequence.undo();
    sequence.undo();
    sequence.add(root(CONTAINER));
    sequence.add(below(0, LEAF));
    sequence.everything();
    sequence.calls()
}

fn all_undone(rule: u32) -> Vec<Call> {
    let mut sequence = Sequence::started(start(3, 8).with_rule(rule));
    for turn in 0..3 {
        let flags = [0x03, 0x01, 0x02][turn];
        sequence.add(root(CONTAINER).with_list(of_creator(flags)));
        sequence.add(below(0, [LEAF, CONTAINER, CONTAINER][turn]));
        sequence.change(set_mark(0, turn == 1));
        sequence.lists();
        for _ in 0..3 {
            sequence.undo();
        }
        sequence.counts();
        sequence.play(Call::Undo);
        sequence.add(below(0, LEAF));
        sequence.read_into(Part::List, 0, 9);
    }
    sequence.calls()
}

fn siblings(rule: u32) -> Vec<Call> {
    let mut sequence = Sequence::started(start(6, 9).with_rule(rule));
    sequence.add(root(CONTAINER).with_list(of_creator(0x03)));
    sequence.add(below(0, LEAF).with_list(one_entry(0x03, 1)));
    sequence.add(below(0, CONTAINER).with_list(one_entry(0x02, 2)));
    sequence.add(below(0, CONTAINER | PROTECTED).with_list(one_entry(0x01, 3)));
    sequence.add(below(2, LEAF));
    sequence.add(below(3, LEAF));
    sequence.lists();
    sequence.change(set_list(2, one_entry(0x03, 7)));
    sequence.lists();
    sequence.change(remove_list(3));
    sequence.lists();
    for _ in 0..4 {
        sequence.undo();
    }
    sequence.counts();
    sequence.calls()
}

/// Entries with an ObjectType, with an InheritedObjectType, with both and
/// with none.
fn object_entries(flags: u8) -> Vec<u8> {
    let guids = [counting_guid(0x40), counting_guid(0x50)];
    let plans: Vec<EntryPlan> = (0..4)
        .map(|word| EntryPlan {
            guids,
            ..EntryPlan::object(5 + (word % 2) as u8, flags, word, creator_sid(0))
        })
        .collect();
    good_list(&plans)
}

/// Objects of the type that the entries name, of the other and of none.
fn types(rule: u32) -> Vec<Call> {
    let mut sequence = Sequence::started(start(6, 6).with_rule(rule));
    sequence.add(root(CONTAINER).with_list(object_entries(0x03)));
    for (traits, first) in [(LEAF, 0x40), (LEAF, 0x50), (CONTAINER, 0x40), (LEAF, 0)] {
        let object_type = match first {
            0 => [0; 16],
            _ => counting_guid(first),
        };
        sequence.add(Add {
            object_type,
            ..below(0, traits)
        });
    }
    sequence.everything();
    sequence.change(set_list(0, object_entries(0x02)));
    sequence.lists();
    for _ in 0..5 {
        sequence.undo();
    }
    sequence.calls()
}

/// What doesn't name an object goes on to those below it.
fn types_down_a_chain(rule: u32) -> Vec<Call> {
    let mut sequence = Sequence::started(start(6, 6).with_rule(rule));
    let of_type = |add: Add, first: u8| Add {
        object_type: counting_guid(first),
        ..add
    };
    sequence.add(of_type(root(CONTAINER), 0x60).with_list(object_entries(0x0B)));
    sequence.add(of_type(below(0, CONTAINER), 0x61));
    sequence.add(of_type(below(1, CONTAINER), 0x40));
    sequence.add(of_type(below(2, LEAF), 0x40));
    sequence.everything();
    sequence.change(set_list(1, one_entry(0x03, 9)));
    sequence.lists();
    sequence.change(set_list(0, object_entries(0x01)));
    sequence.lists();
    for _ in 0..4 {
        sequence.undo();
    }
    sequence.calls()
}

/// Owner and group come in where the entry is the object's own; below it the
/// name is settled.
fn placeholders(rule: u32) -> Vec<Call> {
    let list = good_list(&[
        EntryPlan::plain(0, 0x03, creator_sid(0)),
        EntryPlan::plain(1, 0x02, creator_sid(1)),
        EntryPlan::plain(1, 0x01, creator_sid(2)),
    ]);
    let (short, long) = (nt_sid(&[]), nt_sid(&[7; 9]));
    let mut sequence = Sequence::started(start(4, 9).with_rule(rule));
    sequence.add(root(CONTAINER).with_list(list.clone()));
    sequence.add(below(0, CONTAINER).with_owner(long.clone()));
    sequence.add(below(1, LEAF).with_group(long.clone()));
    sequence.everything();
    sequence.change(set_owner(0, short.clone(), long.clone()));
    sequence.lists();
    sequence.change(set_list(1, list));
    sequence.lists();
    sequence.change(set_owner(1, long, short));
    sequence.lists();
    for _ in 0..4 {
        sequence.undo();
    }
    sequence.calls()
}

/// Some mappings bring generic bits in.
fn masks(rule: u32) -> Vec<Call> {
    let plans: Vec<EntryPlan> = [
        0x8000_0000,
        0x4000_0001,
        0x2000_0000,
        0x1000_0000,
        0xF000_0000,
    ]
    .into_iter()
    .map(|mask| EntryPlan {
        mask,
        ..EntryPlan::plain(0, 0x03, system())
    })
    .collect();
    let mut sequence = Sequence::started(Start {
        mapping: [0x4000_0010, 0x0020_0020, 0x1000_0040, 0x0080],
        ..start(4, 9).with_rule(rule)
    });
    sequence.add(root(CONTAINER).with_list(good_list(&plans)));
    sequence.add(below(0, CONTAINER));
    sequence.add(below(1, CONTAINER));
    sequence.add(below(2, LEAF));
    sequence.everything();
    sequence.change(set_list(0, good_list(&plans[1..3])));
    sequence.lists();
    for _ in 0..4 {
        sequence.undo();
    }
    sequence.calls()
}

/// An empty own list is a list: no default in its place.
fn empty_lists(rule: u32, default_list: Option<Vec<u8>>) -> Vec<Call> {
    let mut start = start(4, 9).with_rule(rule);
    if let Some(list) = default_list {
        start = start.with_default(list);
    }
    let empty = || good_list(&[]);
    let mut sequence = Sequence::started(start);
    sequence.add(root(CONTAINER).with_list(empty()));
    sequence.add(below(0, LEAF));
    sequence.add(below(0, CONTAINER | PROTECTED).with_list(list_of_plans(4, &[])));
    sequence.everything();
    for change in [
        remove_list(0),
        set_list(0, one_entry(0x03, 4)),
        set_list(1, empty()),
    ] {
        sequence.change(change);
        sequence.lists();
    }
    for _ in 0..6 {
        sequence.undo();
    }
    sequence.counts();
    sequence.calls()
}

/// What is inheritable but not for this object leaves an empty list.
fn not_applying(rule: u32) -> Vec<Call> {
    let start = start(4, 9).with_rule(rule);
    let mut sequence = Sequence::started(start.with_default(one_entry(0, 6)));
    sequence.add(root(CONTAINER).with_list(one_entry(0x02, 1)));
    sequence.add(below(0, LEAF));
    sequence.add(below(0, CONTAINER));
    sequence.add(below(0, LEAF).with_list(one_entry(0, 2)));
    sequence.everything();
    sequence.change(set_list(0, one_entry(0x05, 1)));
    sequence.lists();
    sequence.change(set_mark(3, true));
    sequence.lists();
    for _ in 0..4 {
        sequence.undo();
    }
    sequence.calls()
}

/// Entries with ID in an own list are dropped; in a default list they stay.
fn inherited_entries_given(rule: u32) -> Vec<Call> {
    let list = good_list(&[
        EntryPlan::plain(0, 0x13, nt_sid(&[1])),
        EntryPlan::plain(1, 0x03, nt_sid(&[2])),
        EntryPlan::plain(0, 0x1A, creator_sid(0)),
    ]);
    let start = start(4, 9).with_rule(rule);
    let mut sequence = Sequence::started(start.with_default(list.clone()));
    sequence.add(root(CONTAINER));
    sequence.add(below(0, CONTAINER).with_list(list.clone()));
    sequence.add(below(1, LEAF));
    sequence.everything();
    sequence.change(set_list(0, list));
    sequence.lists();
    sequence.change(set_list(0, one_entry(0x13, 5)));
    sequence.lists();
    for _ in 0..4 {
        sequence.undo();
    }
    sequence.calls()
}

/// All 32 flags of an entry of the root, and what comes down two levels.
fn every_flag(rule: u32, kind: u32) -> Vec<Call> {
    let mut sequence = Sequence::started(start(3, 4).with_rule(rule));
    let plans = |flags: std::ops::Range<u8>| -> Vec<u8> {
        let plan = |flags| EntryPlan::plain(0, flags, nt_sid(&[u32::from(flags)]));
        good_list(&flags.map(plan).collect::<Vec<EntryPlan>>())
    };
    sequence.add(root(CONTAINER).with_list(plans(0..4)));
    sequence.add(below(0, CONTAINER));
    sequence.add(below(1, kind));
    sequence.lists();
    for first in [4, 8, 12, 16, 20, 24, 28] {
        sequence.change(set_list(0, plans(first..first + 4)));
        sequence.lists();
    }
    for _ in 0..4 {
        sequence.undo();
    }
    sequence.calls()
}

/// The revision follows the entries of the result.
fn revisions(rule: u32) -> Vec<Call> {
    let plain = EntryPlan::plain(0, 0x03, nt_sid(&[1]));
    let dropped = EntryPlan::object(5, 0x10, 1, nt_sid(&[2]));
    let going_on = EntryPlan::object(6, 0x02, 2, nt_sid(&[3]));
    let mut sequence = Sequence::started(start(4, 9).with_rule(rule));
    sequence.add(root(CONTAINER).with_list(list_of_plans(4, std::slice::from_ref(&plain))));
    sequence.add(below(0, CONTAINER));
    sequence.add(below(0, LEAF).with_list(good_list(&[plain.clone(), dropped.clone()])));
    sequence.everything();
    sequence.change(set_list(0, good_list(&[dropped, plain.clone()])));
    sequence.lists();
    sequence.change(set_list(0, good_list(&[plain, going_on])));
    sequence.lists();
    for _ in 0..4 {
        sequence.undo();
    }
    sequence.calls()
}
