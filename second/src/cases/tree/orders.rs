//! Several faults at once: 9, 10, 1 to 5, 6 and 8 decide in this order.

use super::make::{CONTAINER, LEAF, below, list_of_length, set_list, set_owner, system, too_long};
use super::refusals::three_objects;
use crate::cases::build::creator_sid;
use crate::random::Random;
use crate::tree::{Add, Call, Change, Part};

/// Of an add: the parent, the limit, the list, owner and group, its length.
const STAGES: u32 = 5;

pub fn sequences(random: &mut Random) -> Vec<Vec<Call>> {
    let mut sequences = Vec::new();
    for full in [false, true] {
        for turn in 0..4 {
            sequences.push(adds(random, full, turn));
        }
    }
    sequences.push(other_changes());
    sequences
}

fn adds(random: &mut Random, full: bool, turn: u32) -> Vec<Call> {
    let mut sequence = three_objects(if full { 3 } else { 8 }, 8);
    for stages in 0..1 << STAGES {
        let bad = |stage: u32| stages >> stage & 1 == 1;
        if bad(1) != full {
            continue;
        }
        let mut add = below(*random.pick(&[0, 1]), LEAF);
        if bad(0) {
            add.parent = *random.pick(&[2, 3, 9, u32::MAX]);
        }
        add = add.with_list(list(bad(2), bad(4), turn));
        if bad(3) {
            let which = random.below(2) as u32;
            add = match random.below(3) {
                0 => add.with_owner(creator_sid(which)),
                1 => add.with_group(creator_sid(which)),
                _ => Add {
                    owner: Vec::new(),
                    group: creator_sid(which),
                    ..add
                },
            };
        }
        sequence.add(add);
        if stages % 6 == 1 {
            sequence.read(Part::List, 1);
        }
    }
    sequence.read_all(Part::Own);
    sequence.lists();
    sequence.counts();
    sequence.undo();
    sequence.calls()
}

/// Bad entries behind 1,024 bytes are seen before the length.
fn list(bad: bool, long: bool, turn: u32) -> Vec<u8> {
    let mut list = match (long, turn) {
        // Itself it is short enough, but not with the parent's part.
        (true, 1) => list_of_length(0x03, 1_016),
        (true, _) => too_long(),
        (false, _) => list_of_length(0x03, 80),
    };
    if bad {
        let last_entry = match list.len() {
            80 => 8,
            _ => 8 + 76 * 12,
        };
        let (at, value) = [(0, 7), (1, 0x20), (2, 15), (8, 2)][turn as usize % 4];
        list[last_entry + at] = value;
    }
    list
}

fn other_changes() -> Vec<Call> {
    let mut sequence = three_objects(4, 8);
    let bad_list = list(true, true, 0);
    for object in [3, 1] {
        sequence.change(set_list(object, bad_list.clone()));
        sequence.change(set_list(object, list(true, true, 1)));
        sequence.change(set_list(object, too_long()));
        sequence.change(set_owner(object, creator_sid(0), Vec::new()));
        sequence.change(set_owner(object, system(), creator_sid(0)));
        sequence.change(set_owner(object, creator_sid(1), system()));
    }
    // By owner before the list that the parent's part makes too long.
    let long = || below(1, CONTAINER).with_list(list_of_length(0x03, 1_016));
    sequence.add(long().with_owner(creator_sid(0)));
    sequence.add(long());
    sequence.everything();
    let removed = Change::SetList {
        object: 1,
        has_list: 0,
        list: bad_list,
    };
    sequence.change(removed);
    sequence.lists();
    sequence.undo();
    sequence.calls()
}
