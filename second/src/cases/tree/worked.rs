//! What document 01 works by hand, as trees: a root whose own list is the
//! parent, and one object below it.

use super::make::{
    CONTAINER, LEAF, PROTECTED, below, of_creator, one_entry, remove_list, root, set_list, start,
};
use super::sequence::Sequence;
use crate::tree::{Add, Call};

pub fn sequences() -> Vec<Vec<Call>> {
    let mut sequences = Vec::new();
    for rule in [2, 1] {
        for (parent_flags, child) in pairs() {
            sequences.push(one(rule, parent_flags, child));
        }
    }
    sequences
}

/// K1 to K10, but for K6, whose list would be the default one.
pub fn pairs() -> Vec<(u8, Add)> {
    let of_one_plain_entry = |traits| below(0, traits).with_list(one_entry(0x00, 18));
    vec![
        (0x03, below(0, CONTAINER)),
        (0x03, below(0, LEAF)),
        (0x07, below(0, CONTAINER)),
        (0x01, below(0, CONTAINER)),
        (0x0B, below(0, CONTAINER)),
        (0x00, below(0, CONTAINER)),
        (0x03, of_one_plain_entry(CONTAINER | PROTECTED)),
        (0x03, of_one_plain_entry(CONTAINER)),
        (0x03, below(0, CONTAINER | PROTECTED)),
    ]
}

fn one(rule: u32, parent_flags: u8, child: Add) -> Vec<Call> {
    let mut sequence = Sequence::started(start(16, 16).with_rule(rule));
    sequence.play(Call::Room {
        objects: 16,
        steps: 16,
    });
    sequence.counts();
    sequence.add(root(CONTAINER).with_list(of_creator(parent_flags)));
    sequence.add(child.clone());
    sequence.everything();
    // A grandchild sees whether inheritance goes on.
    sequence.add(Add { parent: 1, ..child });
    sequence.lists();
    sequence.change(remove_list(0));
    sequence.lists();
    sequence.undo();
    sequence.change(set_list(0, one_entry(0x02, 9)));
    sequence.lists();
    for _ in 0..5 {
        sequence.undo();
    }
    sequence.counts();
    sequence.calls()
}
