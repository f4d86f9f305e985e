//! Object limits, reached by adds and left again by undo.

use super::make::{
    CONTAINER, LEAF, below, of_creator, one_entry, root, set_list, set_mark, start, too_long,
};
use super::sequence::Sequence;
use crate::tree::{Add, Call, Calls, Part};

pub fn sequences() -> Vec<Vec<Call>> {
    let mut sequences = Vec::new();
    for objects in [1, 2, 3, 4, 5, 6, 8] {
        for steps in [1, 16] {
            sequences.push(filled(objects, steps));
        }
    }
    sequences.push(sixteen());
    sequences.extend(sixty_four());
    sequences
}

/// Below the root, or each below the one before.
fn another(number: u32, chained: bool) -> Add {
    match (number, chained) {
        (0, _) => root(CONTAINER).with_list(of_creator(0x03)),
        (_, true) => below(number - 1, CONTAINER),
        (_, false) => below(0, [CONTAINER, LEAF][number as usize % 2]),
    }
}

fn filled(objects: u32, steps: u32) -> Vec<Call> {
    let mut sequence = Sequence::started(start(objects, steps));
    for number in 0..objects {
        sequence.stands(another(number, steps == 1));
    }
    sequence.counts();
    // 9 comes before 10, and 10 before the list.
    sequence.add(below(0, LEAF));
    sequence.add(below(0, LEAF).with_list(too_long()));
    sequence.add(below(objects, LEAF));
    sequence.add(root(LEAF));
    sequence.lists();
    sequence.undo();
    sequence.add(another(objects - 1, false));
    sequence.add(below(0, LEAF));
    sequence.change(set_mark(objects - 1, true));
    sequence.undo();
    for _ in 0..objects {
        if sequence.left() < 12 {
            break;
        }
        sequence.undo();
    }
    sequence.counts();
    sequence.calls()
}

/// Containers in chains of nine, each chain below the root.
fn in_chains(number: u32) -> Add {
    match number % 9 {
        1 => below(0, CONTAINER),
        _ => another(number, true),
    }
}

fn sixteen() -> Vec<Call> {
    let mut sequence = Sequence::started(start(16, 2));
    for number in 0..16 {
        sequence.stands(in_chains(number));
    }
    sequence.add(below(0, LEAF));
    sequence.lists();
    sequence.undo();
    sequence.undo();
    sequence.play(Call::Undo);
    sequence.stands(below(13, CONTAINER));
    sequence.stands(below(14, LEAF));
    sequence.add(below(14, LEAF));
    sequence.read(Part::List, 15);
    sequence.read(Part::Data, 15);
    sequence.counts();
    sequence.calls()
}

/// Longer than one sequence: it goes on in the next ones.
fn sixty_four() -> Vec<Vec<Call>> {
    let mut sequence = Sequence::started(start(64, 64));
    for number in 0..64 {
        sequence.stands(in_chains(number));
    }
    sequence.add(below(63, LEAF));
    sequence.counts();
    sequence.lists();
    sequence.change(set_list(0, one_entry(0x02, 77)));
    sequence.lists();
    sequence.play(Call::Undo);
    for object in [0, 1, 31, 62, 63] {
        for part in Part::ALL {
            sequence.read(part, object);
        }
    }
    while sequence.tree().kept_steps() > 0 {
        sequence.play(Call::Undo);
    }
    sequence.play(Call::Undo);
    sequence.everything();
    sequence.in_parts()
}
