//! Random questions whose parts have to do with each other: entries name held
//! SIDs and such as are near them, and speak of few bits.

use super::make::MOST_WANTED;
use crate::access::{MOST_HELD, Question};
use crate::ace::INHERIT_ONLY;
use crate::cases::build::{EntryPlan, creator_sid, good_list, list_of_plans, nt_sid, random_sid};
use crate::cases::inherit::fresh::{not_looked_at, related_guids};
use crate::list::Guid;
use crate::random::Random;

const STORED: usize = 300;
const MOST_ENTRIES: usize = 6;

pub fn questions(random: &mut Random) -> Vec<Question> {
    (0..STORED)
        .map(|_| question(random, MOST_ENTRIES))
        .collect()
}

/// Nothing in it is refused; its list has up to `most` entries.
pub fn question(random: &mut Random, most: usize) -> Question {
    let parts = Parts::draw(random);
    let with_objects = random.chance(2, 3);
    let plans: Vec<EntryPlan> = (0..random.below(most + 1))
        .map(|_| parts.plan(random, with_objects))
        .collect();
    let list = match random.below(4) {
        0 => list_of_plans(4, &plans),
        _ => good_list(&plans),
    };
    let has_list = has_list(random);
    Question {
        has_list,
        list: match has_list {
            0 => not_looked_at(random, list),
            _ => list,
        },
        object_type: parts.asked,
        held: parts.held(random).concat(),
        wanted: parts.wanted(random),
    }
}

/// Numbers but 0 and 1 say yes too.
fn has_list(random: &mut Random) -> u32 {
    match random.below(24) {
        0 => 0,
        1 => random.word(),
        2 => 1 << random.below(32),
        _ => 1,
    }
}

/// What entries and the question have in common.
struct Parts {
    sids: Vec<Vec<u8>>,
    /// How many of them come more often than the others.
    favoured: usize,
    guids: Vec<Guid>,
    asked: Guid,
    /// Few of those that may be wanted.
    bits: u32,
}

impl Parts {
    fn draw(random: &mut Random) -> Parts {
        let guids = related_guids(random);
        let bits = (0..1 + random.below(4)).map(|_| 1 << random.below(28));
        Parts {
            bits: bits.fold(0, |bits, bit| bits | bit),
            sids: related_sids(random),
            favoured: 1 + random.below(3),
            asked: guids[0],
            guids,
        }
    }

    fn sid(&self, random: &mut Random) -> Vec<u8> {
        let sids = match random.below(3) {
            0 => &self.sids,
            _ => &self.sids[..self.favoured],
        };
        random.pick(sids).clone()
    }

    /// Any of the bits, at random.
    fn some_bits(&self, random: &mut Random) -> u32 {
        match random.below(3) {
            0 => self.bits,
            _ => self.bits & random.word(),
        }
    }

    /// Allowing more often than not, and seldom IO.
    fn plan(&self, random: &mut Random, with_objects: bool) -> EntryPlan {
        let mut plan = EntryPlan::random(random, with_objects).naming(self.sid(random));
        if random.chance(1, 4) {
            plan.entry_type = if plan.is_object() { 5 } else { 0 };
        }
        if random.chance(3, 5) {
            plan.flags &= !INHERIT_ONLY;
        }
        plan.mask = self.mask(random);
        for guid in &mut plan.guids {
            *guid = match random.below(8) {
                0..3 => self.asked,
                3..7 => *random.pick(&self.guids),
                _ => *guid,
            };
        }
        plan
    }

    fn mask(&self, random: &mut Random) -> u32 {
        match random.below(8) {
            0 => random.word(),
            1 => random.word() & !self.bits | self.some_bits(random),
            2 => *random.pick(&[0, u32::MAX, MOST_WANTED, !MOST_WANTED]),
            _ => self.some_bits(random),
        }
    }

    /// At most 32: some of the related ones, in any order, and others.
    fn held(&self, random: &mut Random) -> Vec<Vec<u8>> {
        let count = match random.below(24) {
            0 => 0,
            1 => MOST_HELD,
            2 => MOST_HELD - 1,
            3 => random.below(MOST_HELD + 1),
            _ => 1 + random.below(5),
        };
        (0..count)
            .map(|_| match random.below(8) {
                0 => {
                    let numbers = random.below(3);
                    random_sid(random, numbers)
                }
                _ => self.sid(random),
            })
            .collect()
    }

    fn wanted(&self, random: &mut Random) -> u32 {
        match random.below(24) {
            0 => 0,
            1 => MOST_WANTED,
            2 => random.word() & MOST_WANTED,
            3 => 1 << random.below(28),
            _ => match self.some_bits(random) {
                0 => self.bits,
                some => some,
            },
        }
    }
}

/// Some differ in a bit or a number, and placeholders are among them.
fn related_sids(random: &mut Random) -> Vec<Vec<u8>> {
    let numbers = random.below(6);
    let first = random_sid(random, numbers);
    let mut near = first.clone();
    let place = 2 + random.below(near.len() - 2);
    near[place] ^= 1 << random.below(8);
    let creator = creator_sid(random.below(2) as u32);
    let mut sids = vec![first, creator, near];
    sids.rotate_left(random.below(3));
    sids.extend([
        nt_sid(&[18]),
        nt_sid(&[21, 1]),
        nt_sid(&[21, 1, random.below(3) as u32]),
    ]);
    sids
}
