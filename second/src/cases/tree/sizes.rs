//! Lists of 1,024 bytes and of four more, given and computed, by every kind
//! of change.

use super::make::{
    CONTAINER, LEAF, PROTECTED, below, entries_of, list_of_length, one_entry, remove_list, root,
    set_list, set_mark, set_owner, start, system,
};
use super::sequence::Sequence;
use crate::cases::build::{EntryPlan, creator_sid, good_list, nt_sid};
use crate::tree::{Call, LONGEST_LIST};

/// From a step under the limit to a step over it.
const ABOUT: [usize; 4] = [
    LONGEST_LIST - 4,
    LONGEST_LIST,
    LONGEST_LIST + 4,
    LONGEST_LIST + 8,
];

pub fn sequences() -> Vec<Vec<Call>> {
    let mut sequences = Vec::new();
    for rule in [1, 2] {
        sequences.push(given(rule));
        sequences.push(of_another_by_add(rule));
        sequences.push(of_another_by_set_list(rule));
        sequences.push(by_owner(rule));
        sequences.push(by_group_below(rule));
        sequences.push(by_default(rule));
    }
    sequences.push(by_mark());
    sequences.push(beside_the_parents());
    sequences
}

fn given(rule: u32) -> Vec<Call> {
    let mut sequence = Sequence::started(start(3, 9).with_rule(rule));
    for length in ABOUT {
        sequence.add(root(CONTAINER).with_list(list_of_length(0, length)));
        sequence.lists();
        sequence.undo();
    }
    sequence.stands(root(CONTAINER));
    sequence.stands(below(0, LEAF));
    for length in ABOUT {
        sequence.change(set_list(1, list_of_length(0x03, length)));
        sequence.lists();
        // Those with ID are dropped, but the list given is as long.
        sequence.change(set_list(1, list_of_length(0x13, length)));
        sequence.lists();
    }
    sequence.everything();
    for _ in 0..3 {
        sequence.undo();
    }
    sequence.calls()
}

/// Entries that a container has once and twice, so that its list has the
/// length wanted.
fn doubled_to(length: usize) -> Vec<u8> {
    const ONCE: usize = 20;
    let odd = !(length - 8).is_multiple_of(8);
    let once = if odd { ONCE } else { ONCE + 4 };
    let mut plans = entries_of(0x06, once);
    plans.extend(entries_of(0x02, (length - 8 - once) / 2));
    good_list(&plans)
}

fn of_another_by_add(rule: u32) -> Vec<Call> {
    let mut sequence = Sequence::started(start(3, 9).with_rule(rule));
    for length in ABOUT {
        sequence.add(root(CONTAINER).with_list(doubled_to(length)));
        sequence.add(below(0, CONTAINER));
        sequence.lists();
        // A leaf has nothing of it.
        sequence.add(below(0, LEAF));
        sequence.lists();
        while sequence.objects() > 0 {
            sequence.play(Call::Undo);
        }
    }
    sequence.counts();
    sequence.calls()
}

fn of_another_by_set_list(rule: u32) -> Vec<Call> {
    let mut sequence = Sequence::started(start(4, 9).with_rule(rule));
    sequence.add(root(CONTAINER).with_list(one_entry(0x03, 1)));
    sequence.add(below(0, LEAF));
    sequence.add(below(0, CONTAINER));
    for length in ABOUT {
        sequence.change(set_list(0, doubled_to(length)));
        sequence.lists();
    }
    for length in ABOUT {
        sequence.change(set_list(0, list_of_length(0x01, length)));
        sequence.lists();
    }
    for _ in 0..4 {
        sequence.undo();
    }
    sequence.calls()
}

/// The owner that makes a list of placeholders as long as wanted.
fn by_owner(rule: u32) -> Vec<Call> {
    let mut sequence = Sequence::started(start(3, 9).with_rule(rule));
    // 20 bytes for the placeholder and 980 others make 1,008.
    let mut plans = vec![EntryPlan::plain(0, 0x00, creator_sid(0))];
    plans.extend(entries_of(0x00, 980));
    sequence.add(root(CONTAINER).with_list(good_list(&plans)));
    for numbers in [1, 4, 5, 6, 7, 15] {
        sequence.change(set_owner(0, nt_sid(&vec![3; numbers]), nt_sid(&[3; 15])));
        sequence.lists();
        sequence.counts();
    }
    // All but the add: 1, 4 and 5 numbers were short enough.
    for _ in 0..3 {
        sequence.undo();
    }
    for numbers in [5, 6] {
        let owner = nt_sid(&vec![4; numbers]);
        let list = good_list(&plans);
        sequence.add(below(0, PROTECTED).with_owner(owner).with_list(list));
        sequence.lists();
    }
    sequence.calls()
}

/// A default list's placeholder, in the list of an object that is not the
/// root.
fn by_group_below(rule: u32) -> Vec<Call> {
    let mut plans = entries_of(0x00, 980);
    plans.push(EntryPlan::plain(1, 0x10, creator_sid(1)));
    let start = start(3, 9).with_rule(rule);
    let mut sequence = Sequence::started(start.with_default(good_list(&plans)));
    sequence.add(root(CONTAINER));
    sequence.add(below(0, CONTAINER));
    for numbers in [4, 5, 6, 15, 0] {
        sequence.change(set_owner(1, nt_sid(&[3; 15]), nt_sid(&vec![3; numbers])));
        sequence.lists();
        sequence.counts();
    }
    sequence.add(below(1, LEAF).with_group(nt_sid(&[6; 6])));
    sequence.add(below(1, LEAF).with_group(nt_sid(&[6; 5])));
    sequence.lists();
    for _ in 0..5 {
        sequence.undo();
    }
    sequence.calls()
}

fn by_default(rule: u32) -> Vec<Call> {
    let start = start(3, 9).with_rule(rule);
    let default_list = doubled_to(LONGEST_LIST + 4);
    let mut sequence = Sequence::started(start.with_default(default_list));
    sequence.add(root(CONTAINER));
    // The root has the default list; the child would have it twice.
    sequence.add(below(0, CONTAINER));
    sequence.add(below(0, LEAF));
    sequence.lists();
    sequence.change(set_list(0, one_entry(0, 3)));
    sequence.add(below(0, CONTAINER));
    sequence.lists();
    sequence.change(remove_list(0));
    sequence.everything();
    for _ in 0..5 {
        sequence.undo();
    }
    sequence.calls()
}

/// A mark keeps the parent's part out.
fn by_mark() -> Vec<Call> {
    let mut sequence = Sequence::started(start(3, 16));
    sequence.add(root(CONTAINER).with_list(list_of_length(0x01, 508)));
    sequence.add(below(0, LEAF | PROTECTED).with_list(one_entry(0, 1)));
    for length in [516, 520, 524, 528] {
        sequence.change(set_list(1, list_of_length(0, length)));
        sequence.change(set_mark(1, false));
        sequence.lists();
        sequence.change(set_mark(1, true));
        sequence.lists();
    }
    sequence.counts();
    for _ in 0..5 {
        sequence.undo();
    }
    sequence.calls()
}

fn beside_the_parents() -> Vec<Call> {
    let mut sequence = Sequence::started(start(4, 4));
    sequence.add(root(CONTAINER).with_list(list_of_length(0x02, 208)));
    // The parent's part has 400 bytes below it.
    for length in [620, 624, 628, 632] {
        sequence.add(below(0, CONTAINER).with_list(list_of_length(0, length)));
        sequence.lists();
    }
    sequence.change(set_owner(0, nt_sid(&[1; 15]), system()));
    sequence.everything();
    for _ in 0..4 {
        sequence.undo();
    }
    sequence.calls()
}
