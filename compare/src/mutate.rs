//! Changes to good bytes, mostly where a test looks.

use second::cases::build::{EntryPlan, fix_size, list_of};
use second::cases::condition::fresh::Attributes;
use second::cases::condition::{bad_lists, damage};
use second::cases::spoil::{one_of_each, spoilt};
use second::condition::MOST_TOKENS;
use second::list::List;
use second::random::Random;
use std::ops::Range;

pub const TELLING: [u8; 21] = [
    0, 1, 2, 3, 4, 5, 6, 7, 8, 9, 0x0A, 0x0F, 0x10, 0x11, 0x14, 0x1F, 0x20, 0x40, 0x7F, 0x80, 0xFF,
];

pub fn changed_byte(random: &mut Random, old: u8) -> u8 {
    match random.below(8) {
        0 => old.wrapping_add(1),
        1 => old.wrapping_sub(1),
        2 => old.wrapping_add(4),
        3 => old.wrapping_sub(4),
        4 => old ^ (1 << random.below(8)),
        5 => random.byte(),
        _ => *random.pick(&TELLING),
    }
}

fn change_at(random: &mut Random, bytes: &mut [u8], at: usize) {
    if let Some(place) = bytes.get_mut(at) {
        *place = changed_byte(random, *place);
    }
}

/// The most tokens of a condition: few in most lists.
pub fn tokens(random: &mut Random) -> usize {
    match random.below(16) {
        0 => MOST_TOKENS,
        _ => 8,
    }
}

/// In one of three good lists plain entries are under conditions.
pub fn conditional_at_times(random: &mut Random, list: Vec<u8>) -> Vec<u8> {
    if random.chance(2, 3) {
        return list;
    }
    let attributes = Attributes::draw(random);
    let tokens = tokens(random);
    attributes.under_conditions(random, &list, tokens)
}

/// Of a good list: in half of those with a conditional entry, what is behind
/// one of their SIDs.
pub fn mutate_list(random: &mut Random, list: &mut Vec<u8>) {
    let expressions = expressions(list);
    if !expressions.is_empty() && random.chance(1, 2) {
        let place = random.pick(&expressions).clone();
        return mutate_expression(random, list, place);
    }
    match random.below(16) {
        0 | 1 => {
            let at = random.below(8);
            change_at(random, list, at);
        }
        2 => {
            let at = random.below(list.len());
            change_at(random, list, at);
        }
        3 => change_length_inside(random, list),
        4 => set_small_size(random, list),
        _ => {
            let at = telling_place(random, list);
            change_at(random, list, at);
        }
    }
}

/// Where expressions lie in a good list.
fn expressions(list: &[u8]) -> Vec<Range<usize>> {
    let entries = List::parse(list).map_or(Vec::new(), |list| list.entries);
    let conditional = entries.iter().filter(|entry| entry.condition.is_some());
    conditional
        .map(|entry| {
            let end = entry.offset + entry.bytes.len();
            end - entry.expression.len()..end
        })
        .collect()
}

/// One byte, or a change after which the sizes follow as often as not.
fn mutate_expression(random: &mut Random, list: &mut Vec<u8>, place: Range<usize>) {
    if random.chance(1, 2) {
        let at = place.start + random.below(place.len());
        list[at] = damage::byte(random, list[at]);
        return;
    }
    let mut expression = list[place.clone()].to_vec();
    damage::expression(random, &mut expression);
    let is_longer = expression.len() as isize - place.len() as isize;
    let entry = entry_starts(list)
        .into_iter()
        .rfind(|&start| start < place.start)
        .expect("an expression lies in an entry");
    list.splice(place, expression);
    fix_size(list);
    if random.chance(1, 2) {
        let size = u16::from_le_bytes([list[entry + 2], list[entry + 3]]);
        let size = size.wrapping_add(is_longer as u16);
        list[entry + 2..entry + 4].copy_from_slice(&size.to_le_bytes());
    }
}

/// Takes bytes out, or puts some in; the size field follows.
fn change_length_inside(random: &mut Random, list: &mut Vec<u8>) {
    if list.len() <= 8 {
        return;
    }
    let at = 8 + random.below(list.len() - 8);
    let length = *random.pick(&[1, 2, 4, 4, 16]);
    if random.chance(1, 2) {
        let end = list.len().min(at + length);
        list.drain(at..end);
    } else {
        list.splice(at..at, vec![0; length]);
    }
    fix_size(list);
}

/// Gives one entry a size about as small as an entry's parts.
fn set_small_size(random: &mut Random, list: &mut [u8]) {
    let starts = entry_starts(list);
    if !starts.is_empty() {
        let entry = *random.pick(&starts);
        list[entry + 2] = random.below(50) as u8;
        list[entry + 3] = 0;
    }
}

/// A byte of an entry's type, flags, size, object word or SID head.
fn telling_place(random: &mut Random, list: &[u8]) -> usize {
    let starts = entry_starts(list);
    if starts.is_empty() {
        return random.below(8);
    }
    let entry = *random.pick(&starts);
    let kind = list[entry];
    let is_object = kind == 5 || kind == 6;
    let sid = entry + sid_place(list, entry, is_object);
    match random.below(if is_object { 10 } else { 7 }) {
        0 => entry,
        1 => entry + 1,
        2 | 3 => entry + 2,
        4 => entry + 3,
        5 => sid,
        6 => sid + 1,
        7 | 8 => entry + 8,
        _ => entry + 9 + random.below(3),
    }
}

fn sid_place(list: &[u8], entry: usize, is_object: bool) -> usize {
    if !is_object {
        return 8;
    }
    let word = list.get(entry + 8).copied().unwrap_or(0);
    12 + 16 * (word & 3).count_ones() as usize
}

/// Where entries seem to start, as far as their sizes lead.
fn entry_starts(list: &[u8]) -> Vec<usize> {
    let mut starts = Vec::new();
    let mut at = 8;
    while let Some(&[_, _, low, high]) = list.get(at..).and_then(|rest| rest.first_chunk()) {
        starts.push(at);
        at += usize::from(u16::from_le_bytes([low, high])).max(4);
    }
    starts
}

/// Bad by its revision, or by one of the tests of an entry: so every number
/// comes about as often.
pub fn bad_list(random: &mut Random) -> Vec<u8> {
    if random.chance(1, 8) {
        return random.pick(&bad_lists()).clone();
    }
    let plans: Vec<EntryPlan> = (0..1 + random.below(4))
        .map(|_| EntryPlan::random(random, true))
        .collect();
    let mut entries: Vec<Vec<u8>> = plans.iter().map(EntryPlan::bytes).collect();
    let bad = random.below(plans.len());
    let way = *random.pick(&one_of_each(&plans[bad]));
    entries[bad] = spoilt(&plans[bad], &[way]);
    let revision = *random.pick(&[4, 4, 4, 4, 4, 3]);
    list_of(revision, &entries)
}

pub fn mutate_identity(random: &mut Random, mut bytes: Vec<u8>) -> Vec<u8> {
    match random.below(6) {
        0 => change_at(random, &mut bytes, 0),
        1 => change_at(random, &mut bytes, 1),
        2 => {
            let at = random.below(bytes.len());
            change_at(random, &mut bytes, at);
        }
        3 => bytes.truncate(random.below(bytes.len() + 1)),
        4 => {
            let tail = *random.pick(&[1, 2, 3, 4, 4, 8]);
            bytes.extend(random.bytes(tail));
        }
        // n and the length change together: again one SID, but for n 16
        _ => {
            if let Some(n) = bytes.get_mut(1) {
                *n = n.wrapping_add(1);
            }
            bytes.extend([0; 4]);
        }
    }
    bytes
}
