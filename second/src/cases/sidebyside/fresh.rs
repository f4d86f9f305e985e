//! Random pairs of lists that have much in common: of few entries that differ,
//! the second in most cases the first with some changes.

use super::make::{case, needed};
use crate::cases::build::{EntryPlan, list_of, random_spare, with_count, with_spare};
use crate::cases::condition::make::{exists, stored};
use crate::random::Random;
use crate::records::Case;
use crate::sidebyside::Lists;

const STORED: usize = 700;
/// Of the lists of most cases, and of some.
const FEW_ENTRIES: usize = 6;
const MANY_ENTRIES: usize = 16;

pub fn cases(random: &mut Random) -> Vec<Case> {
    let mut cases = Vec::new();
    for turn in 0..STORED {
        let most = match turn % 8 {
            0 => MANY_ENTRIES,
            _ => FEW_ENTRIES,
        };
        let lists = lists(random, most);
        let needed = needed(&lists).expect("both are good");
        cases.push(case(&lists, row_length(random, needed)));
    }
    cases
}

/// Too short at times.
pub fn row_length(random: &mut Random, needed: usize) -> usize {
    match random.below(16) {
        0 => needed.saturating_sub(1),
        1 => random.below(needed + 1),
        2..10 => needed,
        _ => needed + random.below(6),
    }
}

/// Both are good; the first has up to so many entries, the second seldom more.
pub fn lists(random: &mut Random, most: usize) -> Lists {
    let palette = Palette::draw(random);
    let count = random.below(most + 1);
    let first = palette.some(random, count);
    let second = match random.below(4) {
        0 => {
            let count = random.below(most + 1);
            palette.some(random, count)
        }
        _ => palette.edited(random, &first),
    };
    palette.laid(random, &first, &second)
}

/// What both lists draw their entries from.
pub struct Palette {
    entries: Vec<Vec<u8>>,
    has_objects: bool,
}

impl Palette {
    /// One to five, some of which are nearly the same.
    pub fn draw(random: &mut Random) -> Palette {
        let has_objects = random.chance(1, 4);
        let mut plans = vec![small(random, has_objects)];
        for _ in 0..random.below(5) {
            plans.push(match random.below(3) {
                0 => small(random, has_objects),
                _ => {
                    let plan = random.pick(&plans).clone();
                    near(random, plan)
                }
            });
        }
        Palette {
            entries: plans.iter().map(EntryPlan::bytes).collect(),
            has_objects,
        }
    }

    fn one(&self, random: &mut Random) -> Vec<u8> {
        random.pick(&self.entries).clone()
    }

    pub fn some(&self, random: &mut Random, count: usize) -> Vec<Vec<u8>> {
        (0..count).map(|_| self.one(random)).collect()
    }

    /// None to four changes, each at any place.
    pub fn edited(&self, random: &mut Random, entries: &[Vec<u8>]) -> Vec<Vec<u8>> {
        let mut edited = entries.to_vec();
        for _ in 0..random.below(5) {
            self.edit(random, &mut edited);
        }
        edited
    }

    fn edit(&self, random: &mut Random, entries: &mut Vec<Vec<u8>>) {
        let at = random.below(entries.len() + 1);
        let [one, other] = [0; 2].map(|_: usize| random.below(entries.len().max(1)));
        match random.below(8) {
            _ if entries.is_empty() => entries.push(self.one(random)),
            0 | 1 => {
                entries.remove(one);
            }
            2 | 3 => entries.insert(at, self.one(random)),
            4 => entries.swap(one, other),
            5 => entries.insert(at, entries[one].clone()),
            6 => entries[one] = self.one(random),
            _ => {
                let run = one.min(other)..one.max(other) + 1;
                match random.below(3) {
                    0 => entries[run].reverse(),
                    1 => entries[run].rotate_left(1),
                    _ => entries.rotate_left(one),
                }
            }
        }
    }

    /// With spare bytes at times, under either revision, and with a count that
    /// hides some.
    pub fn laid(&self, random: &mut Random, first: &[Vec<u8>], second: &[Vec<u8>]) -> Lists {
        let revisions: &[[u8; 2]] = match self.has_objects {
            true => &[[4, 4]],
            false => &[[2, 2], [2, 2], [4, 4], [2, 4], [4, 2]],
        };
        let [of_first, of_second] = *random.pick(revisions);
        let [spare, other_spare] = spare_bytes(random);
        let first = roomy(random, list_of(of_first, first), &spare);
        let second = roomy(random, list_of(of_second, second), &other_spare);
        (first, second)
    }
}

/// Of at most 28 bytes, but for object entries; a few are conditional.
fn small(random: &mut Random, with_objects: bool) -> EntryPlan {
    let mut plan = EntryPlan::random(random, with_objects);
    plan.sid.truncate(20);
    plan.sid[1] = ((plan.sid.len() - 8) / 4) as u8;
    match random.below(8) {
        0 => plan.under(stored(exists("a"))),
        _ => plan,
    }
}

/// Another in one thing; at times in nothing.
fn near(random: &mut Random, mut plan: EntryPlan) -> EntryPlan {
    match random.below(6) {
        0 => plan.flags ^= 1 << random.below(5),
        1 => plan.mask ^= 1 << random.below(32),
        2 => {
            let last = plan.sid.len() - 1;
            plan.sid[last] ^= 1 << random.below(8);
        }
        3 => plan.entry_type ^= if plan.entry_type < 5 { 1 } else { 3 },
        4 => plan.guids[0][15] ^= 1,
        _ => {
            plan.sid.extend([0; 4]);
            plan.sid[1] += 1;
        }
    }
    plan
}

/// None in most cases; else the same, others, of other lengths, or in one list
/// alone.
fn spare_bytes(random: &mut Random) -> [Vec<u8>; 2] {
    let length = 1 + random.below(12);
    let spare = random_spare(random, length);
    match random.below(16) {
        0 | 1 => [spare.clone(), spare],
        2 => {
            let mut other = spare.clone();
            other[random.below(length)] ^= 1 << random.below(8);
            [spare, other]
        }
        3 => {
            let shorter = spare[..random.below(length)].to_vec();
            [spare, shorter]
        }
        4 => [Vec::new(), spare],
        5 => [spare, Vec::new()],
        _ => [Vec::new(), Vec::new()],
    }
}

fn roomy(random: &mut Random, list: Vec<u8>, spare: &[u8]) -> Vec<u8> {
    let list = with_spare(&list, spare);
    let count = usize::from(u16::from_le_bytes([list[4], list[5]]));
    match random.below(16) {
        0 => with_count(&list, random.below(count + 1)),
        _ => list,
    }
}
