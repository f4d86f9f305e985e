//! Conditional entries down a tree: own, set and default lists, refused by 15,
//! and expressions that fill a list.

use super::fresh::{self, Faults};
use super::make::{
    CONTAINER, LEAF, below, of_creator, one_entry, remove_list, root, set_list, set_mark,
    set_owner, start, system, too_long,
};
use super::palette::Palette;
use super::sequence::Sequence;
use crate::cases::build::{EntryPlan, creator_sid, good_list, nt_sid};
use crate::cases::condition;
use crate::cases::condition::make::{exists, exists_of, not, some_expression, stored};
use crate::list::HEADER_LENGTH;
use crate::random::Random;
use crate::tree::{Call, LONGEST_LIST, Part};

const STORED: usize = 12;

pub fn sequences(random: &mut Random) -> Vec<Vec<Call>> {
    let mut sequences = Vec::new();
    for rule in [2, 1] {
        sequences.push(down_a_tree(rule));
        sequences.push(by_default(rule));
    }
    sequences.push(lengths());
    sequences.push(owners());
    sequences.extend(refused());
    let faults = Faults::draw(random).with_conditions();
    for _ in 0..STORED {
        let palette = Palette::of_weight(random, false).with_conditions();
        sequences.push(fresh::one(random, &palette, &faults));
    }
    sequences
}

/// An allow and a deny for those below, and an allow for the owner here.
pub fn some_list() -> Vec<u8> {
    let short = || stored(not(exists("a")));
    good_list(&[
        EntryPlan::conditional(9, 0x03, creator_sid(0), some_expression()),
        EntryPlan::conditional(10, 0x0B, nt_sid(&[32, 544]), short()),
        EntryPlan::conditional(9, 0x00, creator_sid(1), short()),
    ])
}

fn down_a_tree(rule: u32) -> Vec<Call> {
    let mut sequence = Sequence::started(start(4, 8).with_rule(rule));
    sequence.add(root(CONTAINER).with_list(some_list()));
    sequence.add(below(0, CONTAINER).with_owner(nt_sid(&[21, 1])));
    sequence.add(below(1, LEAF).with_list(some_list()));
    sequence.everything();
    sequence.change(set_list(0, of_creator(0x03)));
    sequence.change(set_list(1, some_list()));
    sequence.lists();
    sequence.change(set_mark(1, true));
    sequence.change(remove_list(2));
    sequence.lists();
    for _ in 0..4 {
        sequence.undo();
    }
    sequence.read_all(Part::Own);
    sequence.calls()
}

fn by_default(rule: u32) -> Vec<Call> {
    let start = start(3, 4).with_rule(rule).with_default(some_list());
    let mut sequence = Sequence::started(start);
    sequence.add(root(CONTAINER));
    sequence.add(below(0, CONTAINER).with_group(nt_sid(&[7; 15])));
    sequence.everything();
    sequence.change(set_list(0, one_entry(0x02, 4)));
    sequence.lists();
    sequence.undo();
    sequence.calls()
}

/// One entry, and a list of this length.
fn of_length(flags: u8, sid: Vec<u8>, length: usize) -> Vec<u8> {
    let plan = EntryPlan::conditional(9, flags, sid, Vec::new());
    let rest = HEADER_LENGTH + plan.size() + 4 + 5 + 1;
    let expression = stored(exists_of(&vec![0x61; length - rest]));
    let list = good_list(&[EntryPlan { expression, ..plan }]);
    assert_eq!(list.len(), length);
    list
}

/// A list given of 1,024 bytes is taken; below it the entry comes twice.
fn lengths() -> Vec<Call> {
    let mut sequence = Sequence::started(start(3, 6));
    for length in [LONGEST_LIST - 4, LONGEST_LIST, LONGEST_LIST + 4, 4_096] {
        sequence.add(root(CONTAINER).with_list(of_length(0, system(), length)));
        sequence.everything();
        sequence.play(Call::Undo);
    }
    sequence.add(root(CONTAINER));
    sequence.add(below(0, CONTAINER));
    for length in [512, 516, 520, LONGEST_LIST] {
        sequence.change(set_list(0, of_length(0x02, nt_sid(&[]), length)));
        sequence.lists();
    }
    sequence.undo();
    sequence.calls()
}

/// A longer owner takes the list past the limit, the expression behind it.
fn owners() -> Vec<Call> {
    let mut sequence = Sequence::started(start(2, 6));
    sequence.add(root(CONTAINER).with_list(of_length(0, creator_sid(0), 1_000)));
    for numbers in [0, 1, 6, 7, 8, 15] {
        sequence.change(set_owner(0, nt_sid(&vec![3; numbers]), system()));
        sequence.lists();
    }
    sequence.undo();
    sequence.read_all(Part::Own);
    sequence.calls()
}

/// 15 as a default, in an add and in a set list; before 6 and 8, behind 9.
fn refused() -> Vec<Vec<Call>> {
    let lists = condition::bad_lists();
    let mut sequences: Vec<Vec<Call>> = lists.chunks(8).map(given).collect();
    let mut sequence = Sequence::started(start(1, 2));
    let bad = || lists[0].clone();
    let mut long = too_long();
    long[8] = 10;
    sequence.add(
        root(CONTAINER)
            .with_list(long.clone())
            .with_owner(creator_sid(0)),
    );
    sequence.add(root(CONTAINER).with_list(bad()).with_group(creator_sid(0)));
    sequence.add(root(CONTAINER));
    sequence.add(below(0, LEAF).with_list(bad()));
    sequence.add(below(1, LEAF).with_list(bad()));
    sequence.change(set_list(0, long));
    sequence.change(set_list(1, bad()));
    sequence.everything();
    sequences.push(sequence.calls());
    sequences
}

fn given(lists: &[Vec<u8>]) -> Vec<Call> {
    let mut sequence = Sequence::started(start(3, 3));
    sequence.add(root(CONTAINER).with_list(some_list()));
    sequence.add(below(0, CONTAINER));
    for list in lists {
        sequence.start(start(2, 2).with_default(list.clone()));
        sequence.change(set_list(1, list.clone()));
        sequence.add(below(1, LEAF).with_list(list.clone()));
    }
    sequence.everything();
    sequence.undo();
    sequence.calls()
}
