//! Own, set and default lists with spare bytes: kept and given back with
//! them, counted for the 1,024 bytes of a list given, never computed.

use super::fresh::{self, Faults};
use super::make::{
    CONTAINER, LEAF, PROTECTED, below, entries_of, list_of_length, of_creator, one_entry,
    remove_list, root, set_list, set_mark, set_owner, start, system,
};
use super::palette::Palette;
use super::sequence::Sequence;
use crate::cases::build::{
    EntryPlan, creator_sid, good_list, nt_sid, random_spare, with_count, with_spare,
};
use crate::random::Random;
use crate::tree::{Call, LONGEST_LIST, Part};

const STORED: usize = 20;
/// From a byte under the limit to some over it.
const ABOUT: [usize; 4] = [
    LONGEST_LIST - 1,
    LONGEST_LIST,
    LONGEST_LIST + 1,
    LONGEST_LIST + 4,
];

pub fn sequences(random: &mut Random) -> Vec<Vec<Call>> {
    let mut sequences = Vec::new();
    for rule in [1, 2] {
        sequences.push(kept_and_given_back(random, rule));
        sequences.push(defaults(random, rule));
        sequences.push(hidden_entries(rule));
        sequences.push(hidden_in_the_default(rule));
        sequences.push(lengths_given(rule));
        sequences.push(lengths_computed(rule));
        sequences.push(undone_and_forgotten(random, rule));
    }
    sequences.push(lengths_of_defaults());
    sequences.push(read_into_rooms());
    sequences.push(bad_before_spare());
    let faults = Faults::draw(random);
    for _ in 0..STORED {
        let palette = Palette::draw(random).with_spare_bytes();
        sequences.push(fresh::one(random, &palette, &faults));
    }
    sequences
}

/// Filled up to this length with bytes that make no sense.
fn filled_up(list: &[u8], length: usize) -> Vec<u8> {
    with_spare(list, &vec![0xEE; length - list.len()])
}

fn roomy(random: &mut Random, list: &[u8]) -> Vec<u8> {
    let length = 1 + random.below(30);
    with_spare(list, &random_spare(random, length))
}

fn kept_and_given_back(random: &mut Random, rule: u32) -> Vec<Call> {
    let mut sequence = Sequence::started(start(3, 8).with_rule(rule));
    sequence.add(root(CONTAINER).with_list(roomy(random, &of_creator(0x03))));
    let own = roomy(random, &one_entry(0x03, 4));
    sequence.add(below(0, CONTAINER).with_list(own));
    sequence.everything();
    for list in [one_entry(0x02, 6), good_list(&[]), of_creator(0x0B)] {
        sequence.change(set_list(0, roomy(random, &list)));
        sequence.read_all(Part::Own);
        sequence.lists();
    }
    sequence.change(set_list(0, one_entry(0x02, 6)));
    sequence.read_all(Part::Own);
    for _ in 0..4 {
        sequence.undo();
        sequence.read_all(Part::Own);
    }
    sequence.everything();
    sequence.calls()
}

/// The default list serves both objects, with another owner each.
fn defaults(random: &mut Random, rule: u32) -> Vec<Call> {
    let mut sequence = Sequence::default();
    for list in [of_creator(0x00), good_list(&[]), of_creator(0x03)] {
        let start = start(3, 4).with_rule(rule);
        sequence.start(start.with_default(roomy(random, &list)));
        sequence.add(root(CONTAINER));
        sequence.add(below(0, CONTAINER).with_owner(nt_sid(&[21, 5])));
        sequence.everything();
        sequence.undo();
    }
    sequence.calls()
}

/// Of two entries both, the first or none is counted.
fn hidden_entries(rule: u32) -> Vec<Call> {
    let both = good_list(&[
        EntryPlan::plain(0, 0x03, creator_sid(0)),
        EntryPlan::plain(1, 0x02, nt_sid(&[5])),
    ]);
    let mut sequence = Sequence::started(start(3, 8).with_rule(rule));
    sequence.add(root(CONTAINER).with_list(with_count(&both, 0)));
    sequence.add(below(0, CONTAINER));
    sequence.add(below(1, LEAF).with_list(with_count(&both, 1)));
    sequence.everything();
    for count in [1, 2, 0] {
        sequence.change(set_list(0, with_count(&both, count)));
        sequence.read(Part::Own, 0);
        sequence.lists();
    }
    for _ in 0..4 {
        sequence.undo();
        sequence.read(Part::Own, 0);
    }
    sequence.calls()
}

fn hidden_in_the_default(rule: u32) -> Vec<Call> {
    let list = with_count(&of_creator(0x03), 0);
    let start = start(3, 3).with_rule(rule).with_default(list);
    let mut sequence = Sequence::started(start);
    sequence.add(root(CONTAINER));
    sequence.add(below(0, CONTAINER));
    sequence.everything();
    sequence.change(set_list(0, of_creator(0x03)));
    sequence.lists();
    sequence.undo();
    sequence.calls()
}

/// Short entries and spare bytes of 1,024 in all are taken, one more isn't.
fn lengths_given(rule: u32) -> Vec<Call> {
    let mut sequence = Sequence::started(start(3, 9).with_rule(rule));
    for length in ABOUT {
        sequence.add(root(CONTAINER).with_list(filled_up(&of_creator(0x03), length)));
        sequence.everything();
        sequence.play(Call::Undo);
    }
    sequence.stands(root(CONTAINER));
    for length in ABOUT {
        let list = list_of_length(0x03, LONGEST_LIST - 4);
        sequence.change(set_list(0, filled_up(&list, length)));
        sequence.read(Part::Own, 0);
        sequence.lists();
    }
    sequence.change(set_list(0, filled_up(&good_list(&[]), 2_048)));
    sequence.undo();
    sequence.undo();
    sequence.read(Part::Own, 0);
    sequence.calls()
}

/// Lists of 1,024 bytes are given, whose entries make a list that is short
/// enough or not: for the object itself, and for the one below it.
fn lengths_computed(rule: u32) -> Vec<Call> {
    let mut sequence = Sequence::started(start(3, 9).with_rule(rule));
    sequence.stands(root(CONTAINER));
    sequence.stands(below(0, CONTAINER));
    for entries in [508, 512, 516, 520, 1_016] {
        let list = list_of_length(0x02, entries + 8);
        sequence.change(set_list(0, filled_up(&list, LONGEST_LIST)));
        sequence.lists();
    }
    // A placeholder among entries of 960 bytes, and 36 spare bytes.
    let mut plans = vec![EntryPlan::plain(0, 0x00, creator_sid(0))];
    plans.extend(entries_of(0x00, 960));
    sequence.change(set_list(0, filled_up(&good_list(&plans), LONGEST_LIST)));
    for numbers in [9, 10, 11, 15] {
        sequence.change(set_owner(0, nt_sid(&vec![3; numbers]), system()));
        sequence.lists();
    }
    for _ in 0..3 {
        sequence.undo();
    }
    sequence.read_all(Part::Own);
    sequence.calls()
}

/// Two steps are kept, with the own lists as they were.
fn undone_and_forgotten(random: &mut Random, rule: u32) -> Vec<Call> {
    let mut sequence = Sequence::started(start(2, 2).with_rule(rule));
    sequence.stands(root(CONTAINER).with_list(roomy(random, &one_entry(0x03, 1))));
    for number in 2..5 {
        let list = roomy(random, &one_entry(0x03, number));
        sequence.change(set_list(0, list));
    }
    sequence.change(set_mark(0, true));
    sequence.read_all(Part::Own);
    for _ in 0..3 {
        sequence.undo();
        sequence.read_all(Part::Own);
        sequence.counts();
    }
    sequence.change(remove_list(0));
    sequence.undo();
    sequence.everything();
    sequence.calls()
}

fn lengths_of_defaults() -> Vec<Call> {
    let mut sequence = Sequence::default();
    for length in ABOUT {
        let list = filled_up(&of_creator(0x03), length);
        sequence.start(start(2, 2).with_default(list));
        sequence.add(root(CONTAINER));
        sequence.add(below(0, LEAF));
        sequence.everything();
    }
    sequence.calls()
}

/// An own list needs room for its spare bytes, the computed one doesn't.
fn read_into_rooms() -> Vec<Call> {
    let mut sequence = Sequence::started(start(2, 2));
    let own = filled_up(&of_creator(0x03), 60);
    sequence.add(root(CONTAINER | PROTECTED).with_list(own));
    for part in [Part::Own, Part::List] {
        for out_length in [0, 8, 27, 28, 29, 59, 60, 61, 1_100] {
            sequence.read_into(part, 0, out_length);
        }
    }
    sequence.counts();
    sequence.calls()
}

/// 1 to 5 come before the length; the size field is tested as ever.
fn bad_before_spare() -> Vec<Call> {
    let mut sequence = Sequence::started(start(2, 2));
    sequence.add(root(CONTAINER).with_list(of_creator(0x03)));
    for (at, value) in [
        (1, 1),
        (2, 0xFF),
        (4, 2),
        (8, 9),
        (9, 0x20),
        (10, 0),
        (16, 2),
    ] {
        for length in [40, LONGEST_LIST + 1] {
            let mut list = filled_up(&of_creator(0x03), length);
            list[at] = value;
            sequence.change(set_list(0, list.clone()));
            sequence.add(below(0, LEAF).with_list(list));
        }
    }
    sequence.everything();
    sequence.calls()
}
