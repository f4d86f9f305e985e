//! Starts that are done and refused, and what stands after them.

use super::make::{
    CONTAINER, LEAF, below, list_of_length, of_creator, one_entry, root, set_list, set_mark,
    set_owner, start, too_long,
};
use super::sequence::Sequence;
use crate::cases::build::{good_list, nt_sid};
use crate::cases::inherit::refusals::{BAD_RULES, bad_lists};
use crate::cases::inherit::ways::some_default;
use crate::random::Random;
use crate::tree::{Call, Calls, LONGEST_LIST, Part, Start, room};

pub fn sequences(random: &mut Random) -> Vec<Vec<Call>> {
    let mut sequences = vec![before_any_start()];
    sequences.extend(refused(random));
    sequences.extend(defaults());
    sequences.extend(room_lengths());
    sequences.push(formulas());
    sequences.push(again());
    sequences
}

/// The room is zeros, or nothing is lent: 13.
fn before_any_start() -> Vec<Call> {
    let mut sequence = Sequence::default();
    sequence.counts();
    sequence.play(Call::Undo);
    for part in Part::ALL {
        sequence.read_into(part, 0, 20);
        sequence.read_into(part, 1, 0);
    }
    sequence.start(start(0, 0));
    sequence.add(root(CONTAINER));
    sequence.add(below(0, LEAF));
    sequence.change(set_mark(0, true));
    sequence.change(set_list(0, vec![0; 3]));
    sequence.change(set_owner(9, Vec::new(), Vec::new()));
    sequence.counts();
    sequence.calls()
}

fn with_a_child(start: Start) -> Sequence {
    let mut sequence = Sequence::started(start);
    sequence.add(root(CONTAINER).with_list(of_creator(0x03)));
    sequence.add(below(0, CONTAINER));
    sequence
}

/// Each leaves the tree that stood.
fn refused(random: &mut Random) -> Vec<Vec<Call>> {
    let mut starts: Vec<(u32, Start)> = Vec::new();
    let ample = 219_000;
    for objects in [0, 65, 66, 128, 255, 256, 257, 0x1_0001, u32::MAX] {
        starts.push((ample, start(objects, 2)));
    }
    for steps in [65, 66, 128, 255, 256, 257, 0x1_0000, u32::MAX] {
        starts.push((ample, start(2, steps)));
    }
    for rule in BAD_RULES {
        starts.push((ample, start(2, 2).with_rule(rule)));
    }
    for (objects, steps) in [(1, 0), (2, 2), (16, 16), (64, 64)] {
        let needed = room(objects, steps) as u32;
        for less in [
            1,
            2,
            3,
            255,
            256,
            needed - 1_048,
            needed - 5,
            needed - 1,
            needed,
        ] {
            starts.push((needed - less, start(objects, steps)));
        }
    }
    for list in bad_lists() {
        starts.push((ample, start(1, 1).with_default(list)));
    }
    for length in [LONGEST_LIST + 4, LONGEST_LIST + 8, 2_048, 4_096] {
        let list = list_of_length(0, length);
        starts.push((ample, start(1, 1).with_default(list)));
    }
    starts.extend(several_faults());
    // The tests follow no order of this file.
    for at in (1..starts.len()).rev() {
        starts.swap(at, random.below(at + 1));
    }
    let in_each = |starts: &[(u32, Start)]| {
        let mut sequence = with_a_child(start(3, 3).with_default(some_default()));
        for (place, (room_length, start)) in starts.iter().cloned().enumerate() {
            sequence.play(Call::Start { room_length, start });
            if place % 5 == 2 {
                sequence.lists();
            }
        }
        sequence.everything();
        sequence.undo();
        sequence.add(below(0, LEAF));
        sequence.lists();
        sequence.calls()
    };
    starts.chunks(15).map(in_each).collect()
}

/// The order is 12, then the default list by 1 to 5, then 8.
fn several_faults() -> Vec<(u32, Start)> {
    let bad_list = || {
        let mut list = too_long();
        *list.last_mut().expect("it isn't empty") = 0;
        list[8] = 9;
        list
    };
    let good = start(2, 2);
    let bad_limits = start(65, 2);
    vec![
        (0, bad_limits.clone().with_rule(3).with_default(bad_list())),
        (219_000, bad_limits.with_default(too_long())),
        (219_000, good.clone().with_rule(0).with_default(bad_list())),
        (100, good.clone().with_default(bad_list())),
        (100, good.clone().with_default(too_long())),
        (219_000, good.with_default(bad_list())),
    ]
}

/// Defaults that are done, of every size, and lists that are not looked at.
fn defaults() -> Vec<Vec<Call>> {
    let lists = [
        good_list(&[]),
        one_entry(0x00, 5),
        of_creator(0x03),
        some_default(),
        list_of_length(0, LONGEST_LIST),
        list_of_length(0, 500),
    ];
    let mut sequences = Vec::new();
    for (turn, list) in lists.into_iter().enumerate() {
        let start = start(4, turn as u32);
        let has_default = [1, 2, 0x100, 0x8000_0000][turn % 4];
        sequences.push(under_a_default(Start {
            has_default,
            ..start.with_rule(1 + turn as u32 % 2).with_default(list)
        }));
    }
    for list in [Vec::new(), vec![0xFF; 30], too_long()] {
        sequences.push(under_a_default(Start {
            has_default: 0,
            ..start(4, 4).with_default(list)
        }));
    }
    sequences
}

fn under_a_default(start: Start) -> Vec<Call> {
    let other = || nt_sid(&[21, 5]);
    let mut sequence = Sequence::started(start);
    sequence.add(root(CONTAINER));
    sequence.add(below(0, CONTAINER).with_owner(other()));
    sequence.add(below(1, LEAF).with_group(other()));
    sequence.everything();
    sequence.change(set_list(0, one_entry(0x00, 3)));
    sequence.lists();
    sequence.change(set_list(0, good_list(&[])));
    sequence.lists();
    sequence.change(set_owner(0, other(), other()));
    sequence.lists();
    while sequence.tree().kept_steps() > 0 && sequence.left() > 5 {
        sequence.undo();
    }
    sequence.counts();
    sequence.calls()
}

/// The formula's length, and longer rooms, up to the longest.
fn room_lengths() -> Vec<Vec<Call>> {
    let mut sequences = Vec::new();
    for (objects, steps) in [(1, 0), (1, 1), (2, 5), (16, 16), (64, 0), (1, 64), (64, 64)] {
        let mut sequence = Sequence::default();
        let needed = room(objects, steps) as u32;
        for room_length in [needed, needed + 1, needed + 300, 220_000] {
            let start = start(objects, steps);
            sequence.play(Call::Start { room_length, start });
            sequence.add(root(CONTAINER).with_list(of_creator(0x03)));
            sequence.add(below(0, LEAF));
            sequence.lists();
            sequence.counts();
        }
        sequence.play(Call::Undo);
        sequence.lists();
        sequence.counts();
        sequences.push(sequence.calls());
    }
    sequences
}

fn formulas() -> Vec<Call> {
    let mut sequence = Sequence::default();
    let in_range = [0, 1, 2, 16, 63, 64];
    let outside = [65, 255, 256, 257, 0x1_0001, 0x8000_0001, u32::MAX];
    for objects in in_range {
        for steps in [0, 1, 16, 64] {
            sequence.play(Call::Room { objects, steps });
        }
    }
    for limit in outside {
        for (objects, steps) in [(limit, 1), (1, limit), (limit, limit)] {
            sequence.play(Call::Room { objects, steps });
        }
    }
    sequence.calls()
}

/// A new start leaves nothing of the tree that stood.
fn again() -> Vec<Call> {
    let mut sequence = with_a_child(start(4, 4));
    sequence.everything();
    sequence.start(start(2, 4));
    sequence.counts();
    sequence.play(Call::Undo);
    sequence.read_into(Part::List, 0, 40);
    sequence.add(below(0, CONTAINER));
    sequence.add(root(LEAF));
    sequence.everything();
    sequence.start(start(4, 4).with_default(of_creator(0x03)));
    sequence.add(root(CONTAINER));
    sequence.add(below(0, CONTAINER));
    sequence.everything();
    sequence.start(start(4, 0).with_rule(1));
    sequence.add(root(CONTAINER));
    sequence.everything();
    sequence.calls()
}
