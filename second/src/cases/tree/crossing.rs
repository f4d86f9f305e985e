//! Changes of the root, or of a mark under it, that make a list too long some
//! levels below. The last object of a chain is filled up to the limit.

use super::make::{
    CONTAINER, PROTECTED, below, entries_of, list_of_length, one_entry, root, set_list, set_mark,
    set_owner, start, system,
};
use super::sequence::Sequence;
use crate::cases::build::{EntryPlan, creator_sid, good_list, nt_sid};
use crate::list::HEADER_LENGTH;
use crate::tree::{Add, Call, Calls, LONGEST_LIST, Part};

const DEPTHS: std::ops::RangeInclusive<u32> = 1..=3;

pub fn sequences() -> Vec<Vec<Call>> {
    let mut sequences = Vec::new();
    for depth in DEPTHS {
        sequences.push(by_identity(depth, 0));
        sequences.push(by_identity(depth, 1));
        sequences.push(by_list(depth));
        sequences.push(by_mark(depth));
    }
    sequences
}

/// Below the first, each under the one before; the last has an own list that
/// leaves `missing` bytes under the limit.
fn chain(sequence: &mut Sequence, first: Add, depth: u32, missing: usize) {
    sequence.add(first);
    for number in 1..depth {
        sequence.add(below(number - 1, CONTAINER));
    }
    sequence.add(below(depth - 1, CONTAINER));
    let inherited = sequence.length(Part::List, depth);
    let filler = LONGEST_LIST - inherited - missing + HEADER_LENGTH;
    sequence.change(set_list(depth, list_of_length(0, filler)));
    sequence.lists();
}

/// As far as there are steps, and so many calls are left.
fn undone(mut sequence: Sequence, left: usize) -> Vec<Call> {
    while sequence.left() > left && sequence.tree().kept_steps() > 0 {
        sequence.undo();
    }
    sequence.counts();
    sequence.calls()
}

/// A longer owner, or group, in the place of the root's placeholder; the last
/// has two entries of it.
fn by_identity(depth: u32, which: u32) -> Vec<Call> {
    let mut sequence = Sequence::started(start(5, 8));
    let placeholder = good_list(&[EntryPlan::plain(0, 0x02, creator_sid(which))]);
    chain(
        &mut sequence,
        root(CONTAINER).with_list(placeholder),
        depth,
        8,
    );
    for numbers in [3, 2, 0, 15, 4, 2] {
        let longer = nt_sid(&vec![5; numbers]);
        let (owner, group) = match which {
            0 => (longer, nt_sid(&[5; 15])),
            _ => (nt_sid(&[5; 15]), longer),
        };
        sequence.change(set_owner(0, owner, group));
        sequence.read(Part::List, depth);
        sequence.counts();
    }
    undone(sequence, 8)
}

fn by_list(depth: u32) -> Vec<Call> {
    let mut sequence = Sequence::started(start(5, 8));
    chain(
        &mut sequence,
        root(CONTAINER).with_list(one_entry(0x03, 1)),
        depth,
        40,
    );
    for size in [20, 40, 44, 60, 36, 200] {
        // Twice in the last list, or once where NP is set.
        sequence.change(set_list(0, good_list(&entries_of(0x02, size))));
        sequence.change(set_list(0, good_list(&entries_of(0x06, size))));
        sequence.read(Part::List, depth);
    }
    undone(sequence, 8)
}

/// The object under the root is protected; when it isn't, the root's entries
/// come down to the last.
fn by_mark(depth: u32) -> Vec<Call> {
    let mut sequence = Sequence::started(start(6, 16));
    sequence.add(root(CONTAINER).with_list(one_entry(0x02, 1)));
    sequence.add(below(0, CONTAINER | PROTECTED).with_list(one_entry(0x02, 2)));
    for number in 2..=depth {
        sequence.add(below(number - 1, CONTAINER));
    }
    let last = depth.max(1);
    for missing in [36, 40, 44, 0] {
        let own = match last {
            1 => {
                let mut plans = entries_of(0x02, 20);
                plans.extend(entries_of(0, LONGEST_LIST - HEADER_LENGTH - 20 - missing));
                good_list(&plans)
            }
            _ => list_of_length(0, LONGEST_LIST - 40 - missing),
        };
        sequence.change(set_list(last, own));
        sequence.change(set_mark(1, false));
        sequence.lists();
        sequence.change(set_mark(1, true));
    }
    sequence.change(set_owner(1, system(), system()));
    undone(sequence, 6)
}
