//! Changes that are refused, one test at a time, in a tree that stays as it
//! was.

use super::make::{
    CONTAINER, LEAF, PROTECTED, below, list_of_length, of_creator, one_entry, remove_list, root,
    set_list, set_mark, set_owner, start, system, too_long,
};
use super::sequence::Sequence;
use crate::cases::build::{creator_sid, nt_sid};
use crate::cases::inherit::refusals::{bad_lists, bad_sids};
use crate::cases::list::identities::near_placeholders;
use crate::identity;
use crate::random::Random;
use crate::records::calls::LONGEST_SID;
use crate::tree::{Add, Call, Change, LONGEST_LIST, NO_PARENT, Part};

pub fn sequences(random: &mut Random) -> Vec<Vec<Call>> {
    let mut changes = Vec::new();
    changes.extend(lists());
    changes.extend(identities(random));
    changes.extend(long_lists());
    for at in (1..changes.len()).rev() {
        changes.swap(at, random.below(at + 1));
    }
    let mut sequences: Vec<Vec<Call>> = changes.chunks(22).map(in_a_tree).collect();
    sequences.extend(objects_that_do_not_stand());
    sequences.push(parents());
    sequences.push(not_looked_at());
    sequences
}

/// A root and a container and another object below it.
pub fn three_objects(objects: u32, steps: u32) -> Sequence {
    let mut sequence = Sequence::started(start(objects, steps));
    sequence.add(root(CONTAINER).with_list(of_creator(0x03)));
    sequence.add(below(0, CONTAINER).with_list(one_entry(0x03, 4)));
    sequence.add(below(1, LEAF));
    sequence
}

fn in_a_tree(changes: &[Change]) -> Vec<Call> {
    let mut sequence = three_objects(5, 5);
    for (place, change) in changes.iter().enumerate() {
        let outcome = sequence.change(change.clone());
        assert!(outcome.is_refused());
        if place % 4 == 1 {
            sequence.read(Part::ALL[place / 4 % 3], place as u32 / 12 % 3);
        }
    }
    sequence.everything();
    sequence.undo();
    sequence.counts();
    sequence.calls()
}

fn lists() -> Vec<Change> {
    let in_add = |list: Vec<u8>| Change::Add(below(1, CONTAINER).with_list(list));
    let in_set = |list: Vec<u8>| set_list(1, list);
    let lists = bad_lists();
    let added = lists.iter().cloned().map(in_add);
    added.chain(lists.iter().cloned().map(in_set)).collect()
}

fn identities(random: &mut Random) -> Vec<Change> {
    let good = || nt_sid(&[5, 6]);
    let near = near_placeholders();
    let near = near.into_iter().filter(|sid| identity::classify(sid) != 0);
    let all: Vec<Vec<u8>> = bad_sids(random).into_iter().chain(near).collect();
    let mut changes = Vec::new();
    for (turn, sid) in all.into_iter().enumerate() {
        assert!(sid.len() <= LONGEST_SID);
        let placeholder = identity::classify(&sid) < 6;
        let in_turn = |place: usize| placeholder || turn % 4 == place;
        if in_turn(0) {
            changes.push(Change::Add(below(0, LEAF).with_owner(sid.clone())));
        }
        if in_turn(1) {
            changes.push(Change::Add(below(0, CONTAINER).with_group(sid.clone())));
        }
        if in_turn(2) {
            changes.push(set_owner(1, sid.clone(), good()));
        }
        if in_turn(3) {
            changes.push(set_owner(2, good(), sid));
        }
    }
    for which in [0, 1] {
        changes.push(set_owner(0, creator_sid(which), creator_sid(1 - which)));
    }
    changes
}

fn long_lists() -> Vec<Change> {
    let mut changes = Vec::new();
    for length in [LONGEST_LIST + 4, LONGEST_LIST + 8, 2_048, 4_096] {
        changes.push(set_list(0, list_of_length(0, length)));
        changes.push(set_list(2, list_of_length(0x10, length)));
        changes.push(Change::Add(
            below(0, PROTECTED).with_list(list_of_length(0, length)),
        ));
    }
    changes
}

fn beyond(count: u32) -> [u32; 9] {
    [
        count,
        count + 1,
        63,
        64,
        0xFE,
        0xFF,
        0x100,
        0x8000_0000,
        NO_PARENT,
    ]
}

/// 9 before anything else, for every call that names an object.
fn objects_that_do_not_stand() -> Vec<Vec<Call>> {
    let mut sequences = Vec::new();
    for standing in 0..4 {
        let mut sequence = Sequence::started(start(4, 4));
        for object in 0..standing {
            let add = match object {
                0 => root(CONTAINER).with_list(of_creator(0x03)),
                _ => below(object - 1, CONTAINER),
            };
            sequence.add(add);
        }
        for (turn, object) in beyond(standing).into_iter().enumerate() {
            match turn % 3 {
                0 => {
                    sequence.change(set_mark(object, true));
                    sequence.change(set_list(object, too_long()));
                }
                1 => {
                    sequence.change(remove_list(object));
                    sequence.change(set_owner(object, Vec::new(), system()));
                }
                _ => {
                    sequence.change(set_list(object, vec![9]));
                    sequence.change(set_owner(object, system(), system()));
                }
            }
            sequence.read_into(Part::ALL[turn % 3], object, [0, 60, 1_100][turn / 3]);
        }
        sequence.everything();
        sequences.push(sequence.calls());
    }
    sequences
}

fn parents() -> Vec<Call> {
    let mut sequence = Sequence::started(start(6, 6));
    for parent in beyond(0) {
        if parent != NO_PARENT {
            sequence.add(below(parent, CONTAINER));
        }
    }
    sequence.add(root(CONTAINER));
    sequence.add(root(CONTAINER));
    sequence.add(below(0, LEAF));
    for parent in beyond(2) {
        sequence.add(below(parent, CONTAINER).with_list(too_long()));
    }
    // The second object is no container.
    sequence.add(below(1, CONTAINER));
    sequence.add(below(0, CONTAINER));
    sequence.add(below(2, LEAF));
    sequence.everything();
    sequence.undo();
    // Now the fourth doesn't stand.
    sequence.add(below(3, LEAF));
    sequence.undo();
    sequence.add(below(2, LEAF));
    sequence.counts();
    sequence.calls()
}

/// Bits, flags and lists that no call looks at.
fn not_looked_at() -> Vec<Call> {
    let mut sequence = Sequence::started(start(6, 16));
    let with_all_bits = |add: Add, list: Vec<u8>| Add {
        traits: add.traits | 0xFFFF_FFF8,
        list,
        ..add
    };
    sequence.add(with_all_bits(root(CONTAINER), vec![1, 2, 3]));
    sequence.add(with_all_bits(below(0, PROTECTED), too_long()));
    sequence.everything();
    sequence.change(Change::SetList {
        object: 0,
        has_list: 0x100,
        list: of_creator(0x03),
    });
    sequence.lists();
    for mark in [0x100, 0x8000_0000, 2] {
        sequence.change(Change::SetMark { object: 0, mark });
        sequence.read(Part::Data, 0);
    }
    sequence.change(Change::SetList {
        object: 0,
        has_list: 0,
        list: vec![0xFF; 9],
    });
    sequence.lists();
    sequence.change(set_mark(0, false));
    sequence.everything();
    while sequence.left() > 3 && sequence.objects() > 0 {
        sequence.undo();
    }
    sequence.counts();
    sequence.calls()
}
