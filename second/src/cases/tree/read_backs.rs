//! Lent lengths of `out`: enough, one byte short, none.

use super::make::{
    CONTAINER, LEAF, PROTECTED, below, list_of_length, of_creator, one_entry, root, start,
};
use super::sequence::Sequence;
use crate::cases::build::{good_list, nt_sid};
use crate::records::calls::LONGEST_OUT;
use crate::tree::{Add, Call, LONGEST_LIST, NO_PARENT, Part};

pub fn sequences() -> Vec<Vec<Call>> {
    let mut sequences = Vec::new();
    for part in Part::ALL {
        for add in subjects() {
            sequences.push(of(part, add));
        }
    }
    sequences
}

/// Below a root that has an inheritable entry, or as the root itself.
fn subjects() -> Vec<Add> {
    vec![
        below(0, CONTAINER).with_list(one_entry(0x03, 3)),
        below(0, LEAF),
        below(0, PROTECTED | CONTAINER).with_list(good_list(&[])),
        below(0, PROTECTED | CONTAINER).with_list(list_of_length(0, LONGEST_LIST)),
        below(0, LEAF)
            .with_owner(nt_sid(&[1; 15]))
            .with_group(nt_sid(&[])),
        root(CONTAINER),
    ]
}

fn of(part: Part, add: Add) -> Vec<Call> {
    let mut sequence = Sequence::started(start(2, 2));
    let object = if add.parent == NO_PARENT { 0 } else { 1 };
    if object == 1 {
        sequence.add(root(CONTAINER).with_list(of_creator(0x03)));
    }
    sequence.add(add);
    let length = sequence.length(part, object);
    let about = [
        0,
        1,
        7,
        8,
        length.saturating_sub(4),
        length.saturating_sub(1),
        length,
        length + 1,
        length + 50,
        LONGEST_LIST,
        usize::from(LONGEST_OUT),
    ];
    for out_length in about {
        sequence.read_into(part, object, out_length);
    }
    for missing in [object + 1, 64, 0xFF, 0x100 + object, NO_PARENT] {
        for out_length in [0, length, usize::from(LONGEST_OUT)] {
            sequence.read_into(part, missing, out_length);
        }
    }
    sequence.counts();
    sequence.calls()
}
