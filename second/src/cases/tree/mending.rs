//! Full control down a tree: 10000000 in the default list, in own lists, in IO
//! and object entries, by a mapping that brings generic bits in.

use super::make::{CONTAINER, LEAF, PROTECTED, below, remove_list, root, set_list, start, system};
use super::sequence::Sequence;
use crate::cases::build::{EntryPlan, creator_sid, good_list, nt_sid};
use crate::tree::{Call, Start};

/// Each brings in generic bits of the others.
const MAPPING: [u32; 4] = [0x7000_0001, 0x1000_0002, 0x9000_0004, 0xE000_0F08];

pub fn sequences() -> Vec<Vec<Call>> {
    [2, 1].map(down_a_tree).to_vec()
}

fn with_mask(mask: u32, plan: EntryPlan) -> EntryPlan {
    EntryPlan { mask, ..plan }
}

/// All 16 combinations for everyone below.
fn combinations() -> Vec<u8> {
    let plans = (0..16).map(|generic| {
        let plan = EntryPlan::plain((generic % 2) as u8, 0x03, nt_sid(&[]));
        with_mask(generic << 28 | 0x10, plan)
    });
    good_list(&plans.collect::<Vec<EntryPlan>>())
}

/// Full control for the owner below, by an IO entry, and for a type.
fn own() -> Vec<u8> {
    good_list(&[
        with_mask(0x1000_0000, EntryPlan::plain(0, 0x0B, creator_sid(0))),
        with_mask(0x9000_0020, EntryPlan::object(5, 0x03, 1, system())),
        with_mask(0x1000_0000, EntryPlan::plain(1, 0x00, system())),
    ])
}

fn down_a_tree(rule: u32) -> Vec<Call> {
    let mut sequence = Sequence::started(Start {
        mapping: MAPPING,
        ..start(4, 6).with_rule(rule).with_default(combinations())
    });
    sequence.add(root(CONTAINER));
    sequence.add(below(0, CONTAINER).with_list(own()));
    sequence.add(below(1, LEAF).with_owner(nt_sid(&[7])));
    sequence.lists();
    sequence.change(set_list(0, own()));
    sequence.lists();
    sequence.change(remove_list(1));
    sequence.lists();
    sequence.add(below(0, LEAF | PROTECTED).with_list(own()));
    sequence.lists();
    sequence.play(Call::Undo);
    sequence.undo();
    sequence.undo();
    sequence.counts();
    sequence.calls()
}
