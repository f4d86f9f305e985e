//! Rooms with some of their bytes changed.

use super::places;
use crate::mutate::changed_byte;
use second::cases::build::{creator_sid, hiding_some, random_spare, with_spare};
use second::list::HEADER_LENGTH;
use second::random::Random;
use second::room::{self, Found, Step, length};
use second::tree::LONGEST_LIST;

/// What is left may be well formed or not.
pub fn damaged(random: &mut Random, room: &[u8]) -> Vec<u8> {
    let mut damaged = room.to_vec();
    match random.below(24) {
        0 => cut(random, &mut damaged),
        1 => damaged.fill(0),
        2 => damaged.clear(),
        3 => random_bytes(random, &mut damaged),
        _ => {
            let found = room::read(room).expect("calls leave a tree");
            for _ in 0..1 + random.below(2) {
                damage(random, &found, &mut damaged);
            }
        }
    }
    damaged
}

/// Some of it, or only the last bytes of the formula.
fn cut(random: &mut Random, room: &mut Vec<u8>) {
    let found = room::read(room).expect("calls leave a tree");
    let needed = found.limits.room();
    let length = match random.below(4) {
        0 => random.below(needed),
        1 => needed - 1,
        2 => *random.pick(&[1, 4, 5, 20, 21, 1_047, 1_048, 1_049]),
        // Long enough all the same.
        _ => needed,
    };
    room.truncate(length);
}

/// A head that may be good, and noise behind it.
fn random_bytes(random: &mut Random, room: &mut [u8]) {
    let head = [2, 2, random.below(3) as u8, random.below(3) as u8, 2];
    room.fill_with(|| random.byte());
    if random.chance(3, 4) {
        room[..5].copy_from_slice(&head);
        room[places::DEFAULT_LIST] = 0;
    }
}

fn damage(random: &mut Random, found: &Found, room: &mut [u8]) {
    let objects = found.objects.len();
    let steps = found.steps.len();
    match random.below(27) {
        0 | 1 => {
            let at = random.below(found.limits.room());
            change(random, room, at);
        }
        2 => {
            let at = random.below(5);
            change(random, room, at);
        }
        // One more or one less of objects or steps.
        3 => {
            let at = 2 + random.below(2);
            let by = *random.pick(&[1, 0xFF]);
            room[at] = room[at].wrapping_add(by);
        }
        4..6 if objects > 0 => {
            let at = places::object(random.below(objects)) + random.below(4);
            change(random, room, at);
        }
        6 if objects > 0 => {
            let at = places::object(random.below(objects));
            room[at] = *random.pick(&[0, 1, 2, 3, 0xFE, 0xFF]);
        }
        7..9 if steps > 0 => {
            let number = random.below(steps);
            let at = places::step(found.limits.objects, number) + random.below(6);
            change(random, room, at);
        }
        9 if steps > 1 => exchange_steps(random, found, room),
        10 if objects > 0 => copy_own_data(random, found, room),
        11 => {
            let slot = *random.pick(&places::slots(found));
            let at = slot + random.below(3);
            change(random, room, at);
        }
        12..14 => {
            let slot = *random.pick(&places::slots(found));
            let length = places::length_in_slot(room, slot);
            if length > 0 {
                let at = slot + 3 + random.below(length);
                change(random, room, at);
            }
        }
        14 if objects > 0 => {
            let at = *random.pick(&places::identities(found)) + random.below(10);
            change(random, room, at);
        }
        15..18 if steps > 0 => {
            let at = places::step(found.limits.objects, random.below(steps));
            room[at] = *random.pick(&[0, 1, 1, 2, 2, 3]);
            room[at + 1] = random.below(objects + 2) as u8;
        }
        18 if objects > 0 => {
            let at = *random.pick(&places::identities(found));
            let sid = creator_sid(random.below(3) as u32);
            room[at] = sid.len() as u8;
            room[at + 1..at + 1 + sid.len()].copy_from_slice(&sid);
        }
        19 | 20 => change_limit(random, room),
        21..24 if objects > 0 => change_what_stays(random, found, room),
        24.. => give_spare_bytes(random, found, room),
        _ => copy_list(random, found, room),
    }
}

fn change(random: &mut Random, room: &mut [u8], at: usize) {
    room[at] = changed_byte(random, room[at]);
}

/// By one; without steps, none is in the wrong place afterwards.
fn change_limit(random: &mut Random, room: &mut [u8]) {
    let at = random.below(2);
    let by = *random.pick(&[1, 0xFF, 0xFF]);
    room[at] = room[at].wrapping_add(by);
    if at == 0 && random.chance(3, 4) {
        room[3] = 0;
    }
}

/// Parent, kind or type of an object, in its steps as well.
fn change_what_stays(random: &mut Random, found: &Found, room: &mut [u8]) {
    let number = random.below(found.objects.len());
    let (at, value) = match random.below(4) {
        0 => (0, random.below(found.objects.len() + 1) as u8),
        1 => (0, *random.pick(&[0, 0xFE, 0xFF])),
        2 => (1, *random.pick(&[0, 0, 0, 1, 2])),
        _ => (3 + random.below(16), random.byte()),
    };
    room[places::object(number) + at] = value;
    for (place, step) in found.steps.iter().enumerate() {
        if matches!(step, Step::Other { object, .. } if *object == number) {
            room[places::step(found.limits.objects, place) + 2 + at] = value;
        }
    }
}

fn exchange_steps(random: &mut Random, found: &Found, room: &mut [u8]) {
    let place = |number: usize| places::step(found.limits.objects, number);
    let (first, second) = (
        place(random.below(found.steps.len())),
        place(random.below(found.steps.len())),
    );
    for at in 0..length::STEP {
        room.swap(first + at, second + at);
    }
}

/// From an object or a step to another.
fn copy_own_data(random: &mut Random, found: &Found, room: &mut [u8]) {
    let places = places::own_data(found);
    let (from, to) = (*random.pick(&places), *random.pick(&places));
    // With or without parent, kind and mark.
    let first = random.below(2) * 3;
    room.copy_within(from + first..from + length::OWN_DATA, to + first);
}

/// More bytes than the entries ask for, or fewer entries than there are: good,
/// whichever list it is, but for a size that misses the length at times.
fn give_spare_bytes(random: &mut Random, found: &Found, room: &mut [u8]) {
    let slot = *random.pick(&places::slots(found));
    let length = places::length_in_slot(room, slot);
    if length < HEADER_LENGTH {
        return;
    }
    let list = &room[slot + 3..slot + 3 + length];
    let mut list = if random.chance(1, 3) {
        hiding_some(random, list)
    } else {
        let left = LONGEST_LIST - length;
        let more = left.min(1 + random.below(40)).max(random.below(left + 1));
        with_spare(list, &random_spare(random, more))
    };
    if random.chance(1, 8) {
        list[2] = changed_byte(random, list[2]);
    }
    room[slot + 1..slot + 3].copy_from_slice(&(list.len() as u16).to_le_bytes());
    room[slot + 3..slot + 3 + list.len()].copy_from_slice(&list);
}

/// From a slot to another: good, but not fresh.
fn copy_list(random: &mut Random, found: &Found, room: &mut [u8]) {
    let slots = places::slots(found);
    let (from, to) = (*random.pick(&slots), *random.pick(&slots));
    room.copy_within(from..from + length::SLOT, to);
}
