//! Random computations whose parts have to do with each other: entries name
//! the object's types, hold placeholders and generic bits.

use super::fitting;
use super::ways::DOCUMENT_MAPPING;
use crate::ace::GENERIC;
use crate::cases::build::{
    EntryPlan, MOST_NUMBERS, creator_sid, good_list, list_of_plans, nt_sid, of_creator_authority,
    random_guid,
};
use crate::computing::{MOST_TYPES, Request, setting};
use crate::list::Guid;
use crate::random::Random;
use crate::records::Case;

const STORED: usize = 400;
const MOST_ENTRIES: usize = 5;

pub fn cases(random: &mut Random) -> Vec<Case> {
    (0..STORED)
        .map(|_| {
            let request = request(random, MOST_ENTRIES);
            let more = random.below(6);
            fitting(request, more)
        })
        .collect()
}

/// Good in every part that is looked at, with lists of up to `most` entries.
pub fn request(random: &mut Random, most: usize) -> Request {
    let mut guids = related_guids(random);
    let types: Vec<u8> = (0..random.below(MOST_TYPES + 1))
        .flat_map(|_| *random.pick(&guids))
        .collect();
    guids.extend(lying_across(random, &types));
    let settings = settings(random);
    let mut list = |present: u32, which: Kind| {
        let plans = plans(random, &guids, most, which);
        let list = list(random, &plans);
        if settings & present != 0 {
            list
        } else {
            not_looked_at(random, list)
        }
    };
    let parent = list(setting::PARENT, Kind::Parent);
    let creator = list(setting::CREATOR, Kind::Other);
    let default_list = list(setting::DEFAULT_LIST, Kind::Other);
    Request {
        rule: 1 + random.below(2) as u32,
        settings,
        mapping: mapping(random),
        parent,
        creator,
        default_list,
        types,
        owner: ordinary_sid(random),
        group: ordinary_sid(random),
    }
}

/// Two that differ in one bit, and at times one of zeros.
pub fn related_guids(random: &mut Random) -> Vec<Guid> {
    let mut guids: Vec<Guid> = (0..4).map(|_| random_guid(random)).collect();
    let mut near = guids[0];
    near[random.below(16)] ^= 1 << random.below(8);
    guids.push(near);
    if random.chance(1, 4) {
        guids.push([0; 16]);
    }
    guids
}

/// At times a GUID whose bytes lie across two of the types.
fn lying_across(random: &mut Random, types: &[u8]) -> Option<Guid> {
    if types.len() < 32 || random.chance(3, 4) {
        return None;
    }
    types[1 + random.below(15)..].first_chunk().copied()
}

#[derive(Clone, Copy, PartialEq, Eq)]
enum Kind {
    Parent,
    Other,
}

fn settings(random: &mut Random) -> u32 {
    let odds = [
        (setting::PARENT, 15, 16),
        (setting::CREATOR, 5, 8),
        (setting::DEFAULT_LIST, 2, 3),
        (setting::CONTAINER, 1, 2),
        (setting::AUTO_INHERIT, 2, 3),
        (setting::DEFAULT_DESCRIPTOR, 1, 4),
        (setting::PROTECTED, 1, 4),
        (!setting::ALL, 1, 8),
    ];
    let chosen = odds
        .into_iter()
        .filter(|&(_, part, whole)| random.chance(part, whole));
    chosen.map(|(bits, _, _)| bits).sum()
}

/// In one of four parents no entry is inheritable.
fn plans(random: &mut Random, guids: &[Guid], most: usize, which: Kind) -> Vec<EntryPlan> {
    let with_objects = random.chance(1, 2);
    let kept_flags = match random.below(8) {
        0 | 1 if which == Kind::Parent => 0x1C,
        2 => 0x1D,
        3 => 0x1E,
        _ => 0x1F,
    };
    (0..random.below(most + 1))
        .map(|_| {
            let mut plan = related_plan(random, guids, with_objects);
            plan.flags &= kept_flags;
            plan
        })
        .collect()
}

fn related_plan(random: &mut Random, guids: &[Guid], with_objects: bool) -> EntryPlan {
    let mut plan = EntryPlan::random(random, with_objects);
    match random.below(16) {
        0..6 => plan.sid = creator_sid(random.below(2) as u32),
        6..10 => plan.sid = nt_sid(&[random.below(20) as u32]),
        10 => plan.sid = of_creator_authority(random),
        _ => {}
    }
    for guid in &mut plan.guids {
        if random.chance(7, 8) {
            *guid = *random.pick(guids);
        }
    }
    plan
}

/// Revision 4 also where none of the entries asks for it.
fn list(random: &mut Random, plans: &[EntryPlan]) -> Vec<u8> {
    if random.chance(1, 4) {
        list_of_plans(4, plans)
    } else {
        good_list(plans)
    }
}

pub fn not_looked_at(random: &mut Random, list: Vec<u8>) -> Vec<u8> {
    match random.below(3) {
        0 => list,
        1 => Vec::new(),
        _ => {
            let length = random.below(30);
            random.bytes(length)
        }
    }
}

/// Some bring generic bits in.
pub fn mapping(random: &mut Random) -> [u32; 4] {
    match random.below(4) {
        0 => DOCUMENT_MAPPING,
        1 => [0; 4].map(|_: u32| random.word()),
        2 => [0; 4].map(|_: u32| random.word() & 0x0FFF_FFFF),
        _ => [0; 4].map(|_: u32| 1 << random.below(32)),
    }
}

/// Few bits, with generic ones in most: 10000000 more often than the others.
pub fn generic_mask(random: &mut Random) -> u32 {
    let generic = match random.below(4) {
        0 => 0x1000_0000,
        1 => 0x1000_0000 << random.below(4),
        _ => random.word() & GENERIC,
    };
    let others = match random.below(3) {
        0 => 0,
        1 => 1 << random.below(28),
        _ => random.word() & random.word() & !GENERIC,
    };
    generic | others
}

/// Few bits each, so that it can be told which of them joined; as often as not
/// with generic bits that are brought in.
pub fn telling_mapping(random: &mut Random) -> [u32; 4] {
    [0; 4].map(|_: u32| {
        let own = 1 << random.below(28) | 1 << random.below(28);
        match random.below(4) {
            0 => own | 0x1000_0000,
            1 => own | random.word() & GENERIC,
            _ => own,
        }
    })
}

pub fn ordinary_sid(random: &mut Random) -> Vec<u8> {
    let numbers = match random.below(3) {
        0 => random.below(MOST_NUMBERS + 1),
        _ => random.below(4),
    };
    super::identities::ordinary_sid(random, numbers)
}
