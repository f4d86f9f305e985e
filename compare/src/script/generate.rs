//! Fresh random scripts: most of them good from end to end, others cut,
//! changed in some bytes, of noise, or with a bad head.

use crate::mutate::{bad_list, changed_byte};
use crate::tree::{conditional_at_times, roomy_at_times, spoil};
use second::cases::build::{random_spare, with_spare};
use second::cases::script::fresh;
use second::cases::tree::make::{list_of_length, set_list};
use second::cases::tree::palette::{Palette, object};
use second::random::Random;
use second::script::{HEAD, record};
use second::tree::{Add, Call, Change};

/// Of a record's list.
const LONGEST_LIST: usize = 65_535;
/// Of a record's owner and group.
const LONGEST_SID: usize = 255;
/// No record is longer, and no reader needs more bytes at a time.
const LONGEST_RECORD: usize = 66_069;

pub fn script(random: &mut Random) -> Vec<u8> {
    let mut script = if random.chance(1, 300) {
        long(random)
    } else {
        good(random)
    };
    match random.below(32) {
        0..4 => script.truncate(random.below(script.len() + 1)),
        4..9 => change_bytes(random, &mut script),
        9 | 10 => return noise(random),
        11 | 12 => spoil_head(random, &mut script),
        13 => script.extend(unknown(random)),
        _ => {}
    }
    script
}

/// Well formed from end to end; some of its records are refused.
fn good(random: &mut Random) -> Vec<u8> {
    let heavy = random.chance(1, 4);
    let palette = Palette::of_weight(random, heavy);
    let palette = roomy_at_times(random, palette);
    let palette = conditional_at_times(random, palette);
    let wanted = 10 + random.below(51);
    let seldom = *random.pick(&[6, 12, 1_000]);
    fresh::records(random, &palette, wanted, |random, change| {
        if random.chance(1, seldom) {
            spoil(random, change);
            cut_to_a_record(change);
        }
    })
}

/// Many records, of which every third or so is refused, by every number.
pub fn full_of_refusals(random: &mut Random) -> Vec<u8> {
    let palette = Palette::of_weight(random, true);
    let palette = roomy_at_times(random, palette);
    let palette = conditional_at_times(random, palette);
    let wanted = 60 + random.below(61);
    fresh::records(random, &palette, wanted, |random, change| match change {
        Change::Add(Add { list, .. }) | Change::SetList { list, .. }
            if !list.is_empty() && random.chance(1, 3) =>
        {
            *list = bad_list(random);
        }
        _ if random.chance(1, 6) => {
            spoil(random, change);
            cut_to_a_record(change);
        }
        _ => {}
    })
}

fn cut_to_a_record(change: &mut Change) {
    match change {
        Change::Add(Add {
            owner, group, list, ..
        }) => {
            owner.truncate(LONGEST_SID);
            group.truncate(LONGEST_SID);
            list.truncate(LONGEST_LIST);
        }
        Change::SetList { list, .. } => list.truncate(LONGEST_LIST),
        Change::SetOwner { owner, group, .. } => {
            owner.truncate(LONGEST_SID);
            group.truncate(LONGEST_SID);
        }
        Change::SetMark { .. } => {}
    }
}

/// Longer than any record, so that records lie across every border that a
/// reader may have. Long ones come between the records of good scripts.
pub fn long(random: &mut Random) -> Vec<u8> {
    let least = LONGEST_RECORD + 40 + random.below(3 * LONGEST_RECORD);
    let mut script = good(random);
    while script.len() < least {
        script.extend(long_record(random));
        let more = good(random);
        script.extend(&more[HEAD.len()..]);
    }
    script
}

/// It is refused: its list is too long for a tree, by its entries or by spare
/// bytes alone.
fn long_record(random: &mut Random) -> Vec<u8> {
    let length = match random.below(4) {
        0 => LONGEST_LIST,
        1 => LONGEST_LIST - random.below(40),
        _ => 1_025 + random.below(LONGEST_LIST - 1_024),
    };
    let entries = match random.below(3) {
        0 => 28,
        _ => (length & !3).max(1_028),
    };
    let filled = list_of_length(0x03, entries);
    let spare = random_spare(random, length.saturating_sub(entries));
    let list = with_spare(&filled, &spare);
    let object = object(random, 3);
    let change = if random.chance(1, 2) {
        set_list(object, list)
    } else {
        let mut sid = || {
            let length = *random.pick(&[0, 8, 12, 68, 100, LONGEST_SID]);
            random.bytes(length)
        };
        let (owner, group) = (sid(), sid());
        Change::Add(Add {
            parent: object,
            traits: 7,
            object_type: [9; 16],
            owner,
            group,
            list,
        })
    };
    record(&Call::Change(change))
}

fn change_bytes(random: &mut Random, script: &mut [u8]) {
    for _ in 0..1 + random.below(3) {
        let at = random.below(script.len());
        script[at] = changed_byte(random, script[at]);
    }
}

/// Behind a good head small numbers come often, so that records follow.
fn noise(random: &mut Random) -> Vec<u8> {
    let length = random.below(200);
    let mut bytes = random.bytes(length);
    if random.chance(1, 2) {
        bytes.iter_mut().for_each(|byte| *byte %= 7);
    }
    if random.chance(1, 8) {
        return bytes;
    }
    [&HEAD[..], &bytes].concat()
}

fn spoil_head(random: &mut Random, script: &mut Vec<u8>) {
    let at = random.below(HEAD.len());
    match random.below(4) {
        0 => script.truncate(at),
        1 => {
            script.remove(at);
        }
        2 => script.insert(at, random.byte()),
        _ => script[at] = changed_byte(random, script[at]),
    }
}

/// A record that ends the run, and something behind it.
fn unknown(random: &mut Random) -> Vec<u8> {
    let mut bytes = match random.below(3) {
        0 => vec![*random.pick(&[0, 6, 7, 0x81, 0xFF])],
        1 => vec![3, object(random, 4) as u8, 2 + random.below(254) as u8],
        _ => vec![1, random.byte(), *random.pick(&[1, 2, 0xFF]), 2],
    };
    let more = random.below(20);
    bytes.extend(random.bytes(more));
    bytes
}
