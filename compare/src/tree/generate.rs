//! Fresh random calls: most of them good, others spoilt in a part or in
//! several.

use super::check::Ours;
use crate::mutate::{mutate_identity, mutate_list};
use second::cases::build::{creator_sid, random_list, random_spare, with_spare};
use second::cases::tree::make;
use second::cases::tree::palette::{Palette, object};
use second::random::Random;
use second::tree::{Add, Call, Calls, Change, LONGEST_LIST, Object, Part, Start, Tree, room};

const LONGEST_SID: usize = 300;

/// Small trees in most cases.
pub fn start(random: &mut Random, palette: &Palette) -> Start {
    let (objects, steps) = match random.below(40) {
        0 => (64, *random.pick(&[0, 16, 64])),
        1..4 => (16, 16),
        4 => (1 + random.below(64), random.below(65)),
        _ => (1 + random.below(7), random.below(8)),
    };
    start_of(random, palette, objects as u32, steps as u32)
}

/// One that is accepted.
pub fn start_of(random: &mut Random, palette: &Palette, objects: u32, steps: u32) -> Start {
    let mut start = palette.start(random, objects, steps);
    if start.default_list.len() > LONGEST_LIST {
        start.has_default = 0;
    }
    if random.chance(1, 4) {
        take_a_mapping(random, &mut start);
    }
    start
}

/// Four numbers in a row of the default list, so that one range can be lent.
fn take_a_mapping(random: &mut Random, start: &mut Start) {
    let (words, _) = start.default_list.as_chunks();
    if words.len() > 4 {
        let at = random.below(words.len() - 4);
        start.mapping = std::array::from_fn(|place| u32::from_ne_bytes(words[at + place]));
    }
}

/// How many calls follow a start; now and then enough to pass the greatest
/// step limit.
pub fn how_many(random: &mut Random, start: &Start) -> usize {
    if start.steps >= 60 && random.chance(1, 4) {
        80 + random.below(60)
    } else {
        4 + random.below(16)
    }
}

/// The formula's length, or some more.
pub fn room_length(random: &mut Random, start: &Start) -> usize {
    let more = match random.below(3) {
        0 => 0,
        1 => random.below(10),
        _ => random.below(3_000),
    };
    room(start.objects, start.steps) + more
}

/// Starts to be refused, and now and then one that isn't, before the one that
/// counts.
pub fn spoilt_starts(random: &mut Random, good: &Start, room_length: usize) -> Vec<Call> {
    let mut calls = Vec::new();
    for _ in 0..random.below(3) * random.below(2) {
        let mut start = good.clone();
        let mut lent = room_length;
        for _ in 0..1 + random.below(2) {
            match random.below(8) {
                0 => start.objects = limit(random),
                1 => start.steps = limit(random),
                2 => start.rule = random.below(5) as u32,
                3 => start.rule = random.word(),
                4 => lent = random.below(lent + 1),
                5 => lent = lent.min(room(start.objects, start.steps).saturating_sub(1)),
                _ => {
                    start.has_default = 1;
                    start.default_list = bad_list(random, &start.default_list);
                }
            }
        }
        calls.push(Call::Start {
            room_length: lent as u32,
            start,
        });
    }
    calls
}

fn limit(random: &mut Random) -> u32 {
    match random.below(4) {
        0 => random.word(),
        1 => 1 << random.below(32),
        2 => 60 + random.below(10) as u32,
        _ => *random.pick(&[0, 64, 65, 255, 256, 257, u32::MAX]),
    }
}

/// Mutated, of noise, or too long.
fn bad_list(random: &mut Random, list: &[u8]) -> Vec<u8> {
    match random.below(12) {
        0 => {
            let length = random.below(40);
            random.bytes(length)
        }
        1 | 2 => long_list(random),
        _ => {
            let mut list = list.to_vec();
            if list.len() < 8 {
                list = random_list(random, 4, 2);
            }
            for _ in 0..1 + random.below(2) {
                mutate_list(random, &mut list);
            }
            list
        }
    }
}

/// A little over 1,024 bytes, or far.
fn long_list(random: &mut Random) -> Vec<u8> {
    let length = match random.below(8) {
        0 => 60_000 + 4 * random.below(1_383),
        1 => 4 * (500 + random.below(3_000)),
        _ => LONGEST_LIST + 4 * random.below(4),
    };
    let flags = random.byte() & 0x1F;
    let mut list = make::list_of_length(flags, length);
    if random.chance(1, 4) {
        mutate_list(random, &mut list);
    } else if random.chance(1, 3) {
        // Up to 65,535 bytes.
        let spare = 1 + random.below(7);
        list = with_spare(&list, &random_spare(random, spare));
    }
    list
}

/// Spoils a part of a change, now and then its parent too.
pub fn spoil(random: &mut Random, change: &mut Change) {
    let list_first = random.chance(1, 2);
    match change {
        Change::Add(Add { list, .. }) if list_first => *list = bad_list(random, list),
        Change::SetList { list, .. } => *list = bad_list(random, list),
        Change::Add(Add { owner, group, .. }) | Change::SetOwner { owner, group, .. } => {
            let which = if random.chance(1, 2) { owner } else { group };
            *which = bad_identity(random, which.clone());
        }
        Change::SetMark { object, .. } => *object = random.word() >> random.below(32),
    }
    if let Change::Add(add) = change
        && random.chance(1, 4)
    {
        add.parent = random.word() >> random.below(32);
    }
}

fn bad_identity(random: &mut Random, sid: Vec<u8>) -> Vec<u8> {
    let mut sid = match random.below(6) {
        0 | 1 => creator_sid(random.below(2) as u32),
        2 => {
            let length = random.below(LONGEST_SID);
            random.bytes(length)
        }
        _ if sid.is_empty() => creator_sid(2),
        _ => mutate_identity(random, sid),
    };
    sid.truncate(LONGEST_SID);
    sid
}

pub fn change(random: &mut Random, palette: &Palette, objects: &[Object], most: usize) -> Change {
    let mut change = palette.change(random, objects, most);
    if random.chance(1, 6) {
        for _ in 0..1 + random.below(2) {
            spoil(random, &mut change);
        }
    }
    change
}

/// A call in the middle of a sequence.
pub fn call(random: &mut Random, palette: &Palette, tree: &Tree) -> Call {
    let objects = tree.objects();
    match random.below(32) {
        0..20 => Call::Change(change(random, palette, &objects, tree.limits().objects)),
        20..28 if tree.kept_steps() > 0 => Call::Undo,
        28 => {
            let (objects, steps) = (limit(random), limit(random) % 66);
            Call::Room { objects, steps }
        }
        29 => Call::Undo,
        30 => Call::Counts,
        _ => {
            let part = *random.pick(&Part::ALL);
            let object = object(random, objects.len());
            read(random, &Ours::Found(tree.into()), part, object)
        }
    }
}

/// Into about as much as it needs.
pub fn read(random: &mut Random, ours: &Ours, part: Part, object: u32) -> Call {
    let mut out = [0; LONGEST_LIST];
    let length = ours
        .expected()
        .and_then(|tree| tree.read_back(part, object, &mut out).ok())
        .map_or(0, |answer| answer.length as usize);
    let out_length = match random.below(24) {
        0 => 0,
        1 => length.saturating_sub(1),
        2 => random.below(length + 1),
        3 => LONGEST_LIST + random.below(100),
        4..16 => length,
        _ => length + random.below(20),
    };
    Call::Read {
        part,
        object,
        out_length: out_length as u16,
    }
}

/// One of each call, for a room that may hold a tree or not.
pub fn calls_on_any_room(random: &mut Random, palette: &Palette, ours: &Ours) -> Vec<Call> {
    let objects = ours.objects();
    let standing = objects.len();
    let most = ours.expected().map_or(1, |found| found.limits.objects);
    let mut calls = vec![Call::Counts, Call::Undo];
    for part in Part::ALL {
        let object = object(random, standing);
        calls.push(read(random, ours, part, object));
    }
    let changes = [
        Change::SetMark {
            object: object(random, standing),
            mark: random.below(2) as u32,
        },
        Change::SetList {
            object: object(random, standing),
            has_list: random.below(4) as u32,
            list: palette.list(random),
        },
        Change::SetOwner {
            object: object(random, standing),
            owner: palette.sid(random),
            group: palette.sid(random),
        },
        Change::Add(palette.add(random, &objects)),
        change(random, palette, &objects, most),
    ];
    calls.extend(changes.map(Call::Change));
    calls
}
