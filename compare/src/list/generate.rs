//! Fresh random cases.

use crate::mutate::{TELLING, changed_byte, conditional_at_times, mutate_identity, mutate_list};
use second::ace::LONGEST_LIST;
use second::cases::build::{
    EntryPlan, MOST_NUMBERS, creator_sid, fix_size, hiding_some, list_of, list_of_plans,
    of_creator_authority, random_list, random_sid, random_spare, set_count, with_spare,
};
use second::cases::spoil::{one_of_each, spoilt, thorough};
use second::cases::tree::make::entries_of;
use second::list::HEADER_LENGTH;
use second::random::Random;

/// With spare bytes; without, no list is longer than 65,532 bytes.
const LONGEST_WITH_SPARE: usize = 65_535;
/// Of entries.
const SHORTEST: usize = 16;
const LONGEST: usize = 112;

pub enum Subject {
    List { list: Vec<u8>, row_length: usize },
    Identity(Vec<u8>),
}

pub fn subject(random: &mut Random) -> Subject {
    if random.chance(1, 6) {
        return Subject::Identity(identity(random));
    }
    let (list, count) = list(random);
    let row_length = row_length(random, count);
    Subject::List { list, row_length }
}

/// A list with the count it was made for.
pub fn list(random: &mut Random) -> (Vec<u8>, usize) {
    if random.chance(1, 1_500) {
        return long_list(random);
    }
    if random.chance(1, 200) {
        return long_and_mixed(random);
    }
    let count = entry_count(random);
    let revision = *random.pick(&[2, 4, 4]);
    let good = random_list(random, revision, count);
    let mut good = conditional_at_times(random, good);
    if random.chance(1, 4) {
        good = roomy(random, &good);
    }
    let count = counted(&good);
    let list = match random.below(20) {
        0..5 => good,
        5..15 => mutated(random, good),
        15 => cut(random, good),
        16 => extended(random, good),
        17 if random.chance(1, 2) => with_cut_entry(random, good, count),
        17 => recounted(random, good, count),
        18 => noise_behind_header(random, good),
        _ => noise(random),
    };
    (list, count)
}

/// Spare bytes, or entries that a smaller count hides.
fn roomy(random: &mut Random, list: &[u8]) -> Vec<u8> {
    if random.chance(1, 4) {
        return hiding_some(random, list);
    }
    let length = match random.below(200) {
        0 => 60_000,
        1 => random.below(60_000),
        2..20 => random.below(2_000),
        _ => 1 + random.below(40),
    };
    with_spare(list, &random_spare(random, length))
}

/// Up to the very longest, as often as not.
fn filled_up(random: &mut Random, list: &[u8]) -> Vec<u8> {
    let left = LONGEST_WITH_SPARE.saturating_sub(list.len());
    let length = match random.below(4) {
        0 => left,
        1 => left.saturating_sub(random.below(3)),
        2 => random.below(left + 1),
        _ => return hiding_some(random, list),
    };
    with_spare(list, &random_spare(random, length))
}

/// The count that a list has in its header.
fn counted(list: &[u8]) -> usize {
    u16::from_le_bytes([list[4], list[5]]).into()
}

fn entry_count(random: &mut Random) -> usize {
    match random.below(12) {
        0 => 0,
        1..4 => 1,
        4..10 => 1 + random.below(4),
        _ => random.below(20),
    }
}

fn mutated(random: &mut Random, mut list: Vec<u8>) -> Vec<u8> {
    for _ in 0..1 + random.below(3) {
        mutate_list(random, &mut list);
    }
    list
}

fn cut(random: &mut Random, mut list: Vec<u8>) -> Vec<u8> {
    list.truncate(random.below(list.len() + 1));
    fixed_mostly(random, list)
}

fn extended(random: &mut Random, mut list: Vec<u8>) -> Vec<u8> {
    let tail = 1 + random.below(40);
    list.extend(random.bytes(tail));
    fixed_mostly(random, list)
}

/// One entry more, of which only the first bytes are there.
fn with_cut_entry(random: &mut Random, mut list: Vec<u8>, count: usize) -> Vec<u8> {
    let length = random.below(12);
    let size = random.below(length + 2) as u8;
    let start = [*random.pick(&TELLING), *random.pick(&TELLING), size, 0];
    list.extend(start.into_iter().chain([0; 8]).take(length));
    fix_size(&mut list);
    set_count(&mut list, count + 1);
    list
}

fn fixed_mostly(random: &mut Random, mut list: Vec<u8>) -> Vec<u8> {
    if random.chance(3, 4) {
        fix_size(&mut list);
    }
    list
}

fn recounted(random: &mut Random, mut list: Vec<u8>, count: usize) -> Vec<u8> {
    let wrong = [count + 1, count.wrapping_sub(1), 0, count + 0x100, 0xFFFF];
    set_count(&mut list, *random.pick(&wrong));
    list
}

fn noise_behind_header(random: &mut Random, mut list: Vec<u8>) -> Vec<u8> {
    let kept = list.len().min(8 + random.below(8));
    list.truncate(kept);
    let length = random.below(60);
    list.extend(random.bytes(length));
    fix_size(&mut list);
    list
}

fn noise(random: &mut Random) -> Vec<u8> {
    let length = random.below(120);
    random.bytes(length)
}

/// Near the greatest length: good, changed, or past 65,535 bytes.
fn long_list(random: &mut Random) -> (Vec<u8>, usize) {
    let plan = EntryPlan::random(random, true);
    let room = 65_540 - 8 - random.below(40);
    let count = room / plan.size();
    let mut list = list_of_plans(4, &vec![plan; count]);
    if random.chance(1, 3) {
        list.resize(65_528 + random.below(16), 0);
        fix_size(&mut list);
    }
    if random.chance(1, 4) {
        mutate_list(random, &mut list);
    }
    (list, count)
}

/// Thousands of entries that differ in type, word and length, in up to 65,532
/// bytes, and spare bytes up to 65,535. In half of them a late one is spoilt.
fn long_and_mixed(random: &mut Random) -> (Vec<u8>, usize) {
    let length = match random.below(8) {
        0 => LONGEST_LIST,
        1 => LONGEST_LIST - 4 * random.below(8),
        _ => 20_000 + 4 * random.below(11_383),
    };
    let plans = differing(random, length - HEADER_LENGTH);
    let count = plans.len();
    let mut entries: Vec<Vec<u8>> = plans.iter().map(EntryPlan::bytes).collect();
    let late = count - 1 - random.below(count / 4);
    let ways = match random.below(4) {
        0 | 1 => Vec::new(),
        2 => one_of_each(&plans[late]),
        _ => thorough(&plans[late]),
    };
    if !ways.is_empty() {
        entries[late] = spoilt(&plans[late], &[*random.pick(&ways)]);
    }
    let mut list = list_of(4, &entries);
    if random.chance(1, 3) {
        list = filled_up(random, &list);
    }
    let count = counted(&list);
    if random.chance(1, 12) {
        let at = random.below(HEADER_LENGTH);
        list[at] = changed_byte(random, list[at]);
    }
    (list, count)
}

/// Entries of this many bytes in all.
fn differing(random: &mut Random, mut bytes: usize) -> Vec<EntryPlan> {
    let mut plans = Vec::new();
    while bytes >= LONGEST + SHORTEST {
        let numbers = random.below(MOST_NUMBERS + 1);
        let plan = EntryPlan {
            sid: random_sid(random, numbers),
            ..EntryPlan::random(random, true)
        };
        bytes -= plan.size();
        plans.push(plan);
    }
    plans.extend(entries_of(0x03, bytes));
    plans
}

fn row_length(random: &mut Random, count: usize) -> usize {
    match random.below(16) {
        0 => 0,
        1 => count.saturating_sub(1),
        2 => random.below(count + 1),
        3..9 => count,
        _ => count + random.below(6),
    }
}

fn identity(random: &mut Random) -> Vec<u8> {
    let numbers = random.below(MOST_NUMBERS + 1);
    match random.below(10) {
        0..2 => random_sid(random, numbers),
        2 => creator_sid(0),
        3 => creator_sid(1),
        4 => of_creator_authority(random),
        5 => {
            let near = creator_sid(random.below(3) as u32);
            mutate_identity(random, near)
        }
        6..9 => {
            let good = random_sid(random, numbers);
            mutate_identity(random, good)
        }
        _ => {
            let length = random.below(90);
            random.bytes(length)
        }
    }
}
