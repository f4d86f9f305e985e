//! Random sequences.

use super::palette::{Palette, object};
use super::sequence::{MOST_CALLS, SMALL, Sequence};
use crate::cases::condition;
use crate::cases::inherit::refusals::{bad_lists, bad_sids};
use crate::random::Random;
use crate::tree::{Add, Call, Calls, Change, NO_PARENT, Part};

const STORED: usize = 300;

pub fn sequences(random: &mut Random) -> Vec<Vec<Call>> {
    let faults = Faults::draw(random);
    (0..STORED)
        .map(|_| {
            let palette = Palette::draw(random);
            one(random, &palette, &faults)
        })
        .collect()
}

pub struct Faults {
    lists: Vec<Vec<u8>>,
    sids: Vec<Vec<u8>>,
}

impl Faults {
    pub fn draw(random: &mut Random) -> Faults {
        Faults {
            lists: bad_lists(),
            sids: bad_sids(random),
        }
    }

    /// Lists of conditional entries besides.
    pub fn with_conditions(mut self) -> Faults {
        self.lists.extend(condition::bad_lists());
        self
    }

    pub fn spoil(&self, random: &mut Random, change: &mut Change) {
        let list_first = random.chance(1, 2);
        match change {
            Change::Add(Add { list, .. }) if list_first => *list = self.list(random),
            Change::SetList { list, .. } => *list = self.list(random),
            Change::Add(Add { owner, group, .. }) | Change::SetOwner { owner, group, .. } => {
                let which = if random.chance(1, 2) { owner } else { group };
                *which = random.pick(&self.sids).clone();
            }
            Change::SetMark { object, .. } => *object += 64,
        }
    }

    fn list(&self, random: &mut Random) -> Vec<u8> {
        random.pick(&self.lists).clone()
    }
}

/// What a sequence has room for at its end.
const CLOSING: usize = SMALL + 4;

pub fn one(random: &mut Random, palette: &Palette, faults: &Faults) -> Vec<Call> {
    let most = 1 + random.below(2).max(random.below(SMALL));
    let steps = *random.pick(&[0, 1, 2, 3, 8, 16, 16, 64]);
    let start = palette.start(random, most as u32, steps);
    let mut sequence = Sequence::started(start);
    let wanted = 22 + random.below(38);
    let wanted_left = MOST_CALLS - wanted;
    if random.chance(7, 8) {
        sequence.add(Add {
            parent: NO_PARENT,
            ..palette.add(random, &[])
        });
    }
    while sequence.left() > wanted_left + CLOSING {
        match random.below(16) {
            0..10 => {
                let standing = sequence.tree().objects();
                let mut change = palette.change(random, &standing, most);
                if random.chance(1, 16) {
                    faults.spoil(random, &mut change);
                }
                let done = !sequence.change(change).is_refused();
                if done && random.chance(1, 3) {
                    read_lists(&mut sequence);
                }
            }
            10..13 if sequence.tree().kept_steps() > 0 => sequence.undo(),
            13 => undo_some(random, &mut sequence),
            14 => read_one(random, &mut sequence),
            _ => sequence.counts(),
        }
    }
    sequence.lists();
    sequence.counts();
    read_one(random, &mut sequence);
    sequence.calls()
}

fn read_lists(sequence: &mut Sequence) {
    if sequence.left() > CLOSING + SMALL {
        sequence.lists();
    }
}

fn undo_some(random: &mut Random, sequence: &mut Sequence) {
    for _ in 0..2 + random.below(3) {
        let has_step = sequence.tree().kept_steps() > 0 || random.chance(1, 4);
        if has_step && sequence.left() > CLOSING + SMALL {
            sequence.undo();
        }
    }
}

/// Into too short a room now and then.
fn read_one(random: &mut Random, sequence: &mut Sequence) {
    let part = *random.pick(&Part::ALL);
    let object = object(random, sequence.tree().objects().len());
    let length = sequence.length(part, object);
    let out_length = match random.below(6) {
        0 => length.saturating_sub(1),
        1 => 0,
        2 => length,
        3 => 1_100,
        _ => length + random.below(40),
    };
    sequence.read_into(part, object, out_length);
}
