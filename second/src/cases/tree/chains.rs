//! Chains of objects, each below the one before. Where each has entries of
//! its own that go on, lists grow with every level until one is too long.

use super::make::{
    CONTAINER, LEAF, PROTECTED, below, entries_of, of_creator, one_entry, remove_list, root,
    set_list, set_mark, set_owner, start, system,
};
use super::sequence::Sequence;
use crate::cases::build::{EntryPlan, creator_sid, good_list, nt_sid};
use crate::tree::{Add, Call, Part};

pub fn sequences() -> Vec<Vec<Call>> {
    let mut sequences = Vec::new();
    for (turn, flags) in [0x03, 0x02, 0x0B, 0x01, 0x06].into_iter().enumerate() {
        for size in [76, 152, 20] {
            sequences.push(growing(1 + turn as u32 % 4, flags, size));
        }
    }
    for rule in [1, 2] {
        sequences.push(deep(rule));
        sequences.push(with_owners(rule));
        sequences.push(cut_by_a_mark(rule));
    }
    sequences.push(the_root_makes_them_too_long());
    sequences.push(removing_the_cause());
    sequences
}

fn link(number: u32) -> Add {
    match number {
        0 => root(CONTAINER),
        _ => below(number - 1, CONTAINER),
    }
}

/// Until an add is refused, or twelve stand.
fn growing(steps: u32, flags: u8, size: usize) -> Vec<Call> {
    let mut sequence = Sequence::started(start(16, steps));
    let own = good_list(&entries_of(flags, size));
    while sequence.objects() < 12 {
        let add = link(sequence.objects()).with_list(own.clone());
        if sequence.add(add).is_refused() {
            break;
        }
    }
    let last = sequence.objects() - 1;
    sequence.lists();
    // Protected, it has none of what came down to it.
    let protected = below(last, CONTAINER | PROTECTED).with_list(own);
    sequence.add(protected);
    sequence.change(set_mark(last + 1, false));
    sequence.read(Part::List, last);
    sequence.add(below(last, LEAF));
    sequence.undo();
    sequence.read(Part::List, last);
    sequence.undo();
    sequence.counts();
    sequence.calls()
}

/// Without own lists nothing grows, however deep it goes.
fn deep(rule: u32) -> Vec<Call> {
    let mut sequence = Sequence::started(start(20, 3).with_rule(rule));
    sequence.add(link(0).with_list(of_creator(0x0B)));
    for number in 1..16 {
        sequence.add(link(number));
    }
    sequence.lists();
    sequence.change(set_list(0, one_entry(0x01, 6)));
    for object in [0, 1, 2, 8, 15] {
        sequence.read(Part::List, object);
    }
    sequence.play(Call::Undo);
    sequence.lists();
    sequence.counts();
    sequence.calls()
}

/// Placeholders of every level, each with its own owner and group.
fn with_owners(rule: u32) -> Vec<Call> {
    let both = good_list(&[
        EntryPlan::plain(0, 0x03, creator_sid(0)),
        EntryPlan::plain(1, 0x02, creator_sid(1)),
    ]);
    let mut sequence = Sequence::started(start(6, 6).with_rule(rule));
    for number in 0..4 {
        let add = link(number)
            .with_owner(nt_sid(&vec![number; 1 + number as usize]))
            .with_group(nt_sid(&[number, 99]));
        sequence.add(add.with_list(both.clone()));
    }
    sequence.everything();
    for object in [0, 2] {
        sequence.change(set_owner(object, nt_sid(&[8; 9]), nt_sid(&[])));
        sequence.lists();
    }
    for _ in 0..4 {
        sequence.undo();
    }
    sequence.calls()
}

fn cut_by_a_mark(rule: u32) -> Vec<Call> {
    let mut sequence = Sequence::started(start(5, 8).with_rule(rule));
    for number in 0..4 {
        sequence.add(link(number).with_list(one_entry(0x03, number)));
    }
    sequence.lists();
    sequence.change(set_mark(1, true));
    sequence.lists();
    sequence.change(remove_list(1));
    sequence.lists();
    sequence.change(set_mark(2, true));
    sequence.lists();
    for _ in 0..4 {
        sequence.undo();
    }
    sequence.change(set_mark(0, true));
    sequence.lists();
    sequence.calls()
}

/// The list given is short; those far below would be too long.
fn the_root_makes_them_too_long() -> Vec<Call> {
    let mut sequence = Sequence::started(start(5, 5));
    for number in 0..4 {
        sequence.add(link(number).with_list(good_list(&entries_of(0x03, 76))));
    }
    // The last list has 540 bytes; each entry of the root is in it twice.
    for size in [300, 320, 340, 380, 420] {
        sequence.change(set_list(0, good_list(&entries_of(0x03, size))));
        sequence.counts();
        sequence.read(Part::List, 3);
    }
    sequence.everything();
    for _ in 0..3 {
        sequence.undo();
    }
    let placeholders = vec![EntryPlan::plain(0, 0x03, creator_sid(0)); 6];
    sequence.change(set_list(0, good_list(&placeholders)));
    sequence.change(set_owner(0, nt_sid(&[3; 15]), system()));
    sequence.change(set_owner(0, nt_sid(&[3; 12]), system()));
    sequence.calls()
}

fn removing_the_cause() -> Vec<Call> {
    let mut sequence = Sequence::started(start(5, 5));
    let long = good_list(&entries_of(0x03, 400));
    sequence.add(link(0).with_list(long.clone()));
    sequence.add(link(1));
    sequence.add(link(2).with_list(long.clone()));
    sequence.change(remove_list(0));
    sequence.add(link(2).with_list(long.clone()));
    sequence.change(set_list(0, long.clone()));
    sequence.change(set_mark(2, true));
    sequence.change(set_list(0, long));
    sequence.lists();
    sequence.change(set_mark(2, false));
    sequence.lists();
    for _ in 0..6 {
        sequence.undo();
    }
    sequence.counts();
    sequence.calls()
}
