//! Kept steps: every limit reached and passed, undone until none is left.

use super::make::{
    CONTAINER, LEAF, below, list_of_length, of_creator, one_entry, remove_list, root, set_list,
    set_mark, set_owner, start, system,
};
use super::sequence::Sequence;
use crate::cases::build::{good_list, nt_sid};
use crate::tree::{Call, Calls, Change, Part};

pub fn sequences() -> Vec<Vec<Call>> {
    let mut sequences = Vec::new();
    for steps in [0, 1, 2, 3, 4, 5] {
        for turn in 0..3 {
            sequences.push(few(steps, turn));
        }
        sequences.push(there_and_back(steps));
    }
    for turn in 0..4 {
        sequences.push(sixteen(turn));
    }
    sequences.push(what_already_stands());
    sequences.push(a_refused_change_is_no_step());
    sequences.extend(sixty_four());
    sequences
}

/// All kinds of changes in turn, on the root or another object.
fn change(turn: u32, object: u32) -> Change {
    match turn % 6 {
        0 => set_list(object, one_entry(0x03, turn)),
        1 => set_mark(object, turn % 4 == 1),
        2 => set_owner(object, nt_sid(&[turn, 1]), system()),
        3 => remove_list(object),
        4 => set_list(object, of_creator(0x0B)),
        _ => set_owner(object, system(), nt_sid(&[turn])),
    }
}

/// Past the limit, back as far as it goes, and on again.
fn few(steps: u32, turn: u32) -> Vec<Call> {
    let mut sequence = Sequence::started(start(3, steps).with_rule(1 + turn % 2));
    sequence.play(Call::Undo);
    sequence.add(root(CONTAINER).with_list(of_creator(0x03)));
    sequence.add(below(0, if turn == 1 { LEAF } else { CONTAINER }));
    for more in 0..steps + 1 {
        sequence.change(change(turn + more, more % 2));
    }
    sequence.counts();
    sequence.lists();
    for _ in 0..=steps {
        sequence.undo();
        sequence.counts();
    }
    sequence.change(change(turn, 0));
    sequence.add(below(0, LEAF));
    sequence.counts();
    sequence.undo();
    sequence.undo();
    sequence.play(Call::Undo);
    sequence.everything();
    sequence.calls()
}

/// Changes and undos in turn, so that the steps never fill up.
fn there_and_back(steps: u32) -> Vec<Call> {
    let mut sequence = Sequence::started(start(4, steps));
    sequence.add(root(CONTAINER).with_list(of_creator(0x03)));
    for turn in 0..6 {
        sequence.change(change(turn, 0));
        sequence.add(below(0, CONTAINER));
        sequence.change(change(turn + 1, sequence.objects() - 1));
        sequence.undo();
        sequence.undo();
        if sequence.left() < 14 {
            break;
        }
    }
    sequence.counts();
    sequence.calls()
}

/// One object, so that its list can be read after every undo.
fn sixteen(turn: u32) -> Vec<Call> {
    let mut sequence = Sequence::started(start(2, 16));
    sequence.add(root(CONTAINER).with_list(of_creator(0x03)));
    for more in 0..15 + turn {
        sequence.change(change(turn + more, 0));
    }
    sequence.counts();
    sequence.read(Part::List, 0);
    for _ in 0..17 {
        sequence.undo();
    }
    sequence.counts();
    sequence.calls()
}

/// Setting what stands and removing what is absent are steps.
fn what_already_stands() -> Vec<Call> {
    let mut sequence = Sequence::started(start(3, 16));
    sequence.add(root(CONTAINER).with_list(of_creator(0x03)));
    sequence.add(below(0, LEAF));
    sequence.counts();
    for same in [
        set_list(0, of_creator(0x03)),
        set_mark(0, false),
        set_owner(0, system(), system()),
        remove_list(1),
        set_mark(1, false),
        set_owner(1, system(), system()),
    ] {
        sequence.change(same);
        sequence.counts();
    }
    sequence.everything();
    for _ in 0..8 {
        sequence.undo();
    }
    sequence.counts();
    sequence.play(Call::Undo);
    sequence.calls()
}

fn a_refused_change_is_no_step() -> Vec<Call> {
    let mut sequence = Sequence::started(start(2, 2));
    sequence.add(root(CONTAINER).with_list(of_creator(0x03)));
    sequence.add(below(0, CONTAINER));
    for refused in [
        set_list(0, Vec::new()),
        set_mark(2, true),
        set_owner(0, Vec::new(), system()),
        set_list(0, list_of_length(0x03, 1_000)),
        Change::Add(below(0, LEAF)),
    ] {
        sequence.change(refused);
        sequence.counts();
    }
    sequence.everything();
    for _ in 0..3 {
        sequence.undo();
    }
    sequence.add(root(LEAF).with_list(good_list(&[])));
    sequence.everything();
    sequence.calls()
}

/// Longer than one sequence: it goes on in the next ones.
fn sixty_four() -> Vec<Vec<Call>> {
    let mut sequence = Sequence::started(start(2, 64));
    sequence.add(root(CONTAINER).with_list(of_creator(0x03)));
    for turn in 0..67 {
        sequence.change(change(turn, 0));
    }
    sequence.counts();
    while sequence.tree().kept_steps() > 0 {
        sequence.undo();
    }
    sequence.play(Call::Undo);
    sequence.change(change(1, 0));
    sequence.undo();
    sequence.play(Call::Undo);
    sequence.everything();
    sequence.in_parts()
}
