//! Fresh random computations: most of them good, others spoilt in a part or
//! in several.

use super::masks::ask_for_generic_bits;
use super::share::share;
use crate::mutate::{conditional_at_times, mutate_identity, mutate_list};
use second::ace::LONGEST_LIST;
use second::cases::build::{EntryPlan, creator_sid, good_list, list_of_plans, nt_sid, random_list};
use second::cases::inherit::spare::roomy;
use second::cases::inherit::{fresh, result_length};
use second::computing::{Request, setting};
use second::random::Random;
use second::records::{LONGEST_OTHER, LONGEST_ROOM};

/// Of the lists of most cases.
const FEW_ENTRIES: usize = 6;
const MANY_ENTRIES: usize = 40;

pub struct Case {
    pub request: Request,
    pub room: usize,
    /// Parts that are the same bytes are to be one range.
    pub together: bool,
}

pub fn case(random: &mut Random) -> Case {
    let mut request = if random.chance(1, 400) {
        large(random)
    } else {
        let most = if random.chance(1, 30) {
            MANY_ENTRIES
        } else {
            FEW_ENTRIES
        };
        let request = fresh::request(random, most);
        let request = with_conditions(random, request);
        if random.chance(1, 4) {
            roomy(random, request, spare_length)
        } else {
            request
        }
    };
    if random.chance(1, 2) {
        ask_for_generic_bits(random, &mut request);
    }
    if random.chance(1, 3) {
        for _ in 0..1 + random.below(3) {
            spoil(random, &mut request);
        }
    }
    let together = random.chance(1, 8);
    if together {
        share(random, &mut request);
    }
    let room = room(random, &request);
    Case {
        request,
        room,
        together,
    }
}

fn with_conditions(random: &mut Random, request: Request) -> Request {
    Request {
        parent: conditional_at_times(random, request.parent),
        creator: conditional_at_times(random, request.creator),
        default_list: conditional_at_times(random, request.default_list),
        ..request
    }
}

fn spare_length(random: &mut Random, _left: usize) -> usize {
    match random.below(400) {
        0 => 60_000,
        1 => random.below(60_000),
        2..20 => random.below(2_000),
        _ => 1 + random.below(40),
    }
}

/// Up to the very longest list, in most cases.
fn filling_length(random: &mut Random, left: usize) -> usize {
    match random.below(4) {
        0 => random.below(left + 1),
        _ => left.saturating_sub(random.below(3)),
    }
}

fn spoil(random: &mut Random, request: &mut Request) {
    match random.below(16) {
        0 => request.rule = bad_rule(random),
        1..4 => spoil_list(random, &mut request.parent),
        4..7 => spoil_list(random, &mut request.creator),
        7..10 => spoil_list(random, &mut request.default_list),
        10 | 11 => spoil_identity(random, &mut request.owner),
        12 | 13 => spoil_identity(random, &mut request.group),
        _ => {
            let length = random.below(100);
            request.types = random.bytes(length);
        }
    }
}

fn bad_rule(random: &mut Random) -> u32 {
    match random.below(3) {
        0 => random.word(),
        1 => 1 << random.below(32),
        _ => *random.pick(&[0, 3, 4, u32::MAX]),
    }
}

/// Also where the list is absent and not looked at.
fn spoil_list(random: &mut Random, list: &mut Vec<u8>) {
    if list.is_empty() || random.chance(1, 20) {
        let length = random.below(40);
        *list = random.bytes(length);
        return;
    }
    for _ in 0..1 + random.below(2) {
        mutate_list(random, list);
    }
}

fn spoil_identity(random: &mut Random, sid: &mut Vec<u8>) {
    *sid = match random.below(6) {
        0 | 1 => creator_sid(random.below(2) as u32),
        2 => {
            let length = random.below(LONGEST_OTHER);
            random.bytes(length)
        }
        _ if sid.is_empty() => creator_sid(2),
        _ => mutate_identity(random, sid.clone()),
    };
    sid.truncate(LONGEST_OTHER);
}

/// About the length of the result, or enough for any where there is none.
fn room(random: &mut Random, request: &Request) -> usize {
    let given = request.parent.len() + request.creator.len() + request.default_list.len();
    let ample = (4 * given).min(LONGEST_ROOM);
    let length = result_length(request).unwrap_or(ample);
    match random.below(16) {
        0 => 0,
        1 => length.saturating_sub(1),
        2 => random.below(length + 1),
        3..9 => length,
        9 => length + 300,
        _ => length + random.below(12),
    }
}

/// Results near 65,532 bytes, or far over it; every third has a list that
/// spare bytes fill up to 65,535 bytes or nearly so.
fn large(random: &mut Random) -> Request {
    let request = filled_large(random);
    if random.chance(1, 3) {
        return roomy(random, request, filling_length);
    }
    request
}

fn filled_large(random: &mut Random) -> Request {
    let request = fresh::request(random, FEW_ENTRIES);
    match random.below(6) {
        0 => {
            let parent = growing(random);
            with_long_identities(random, request).with_parent(parent)
        }
        1 | 2 => near_the_limit(random, request),
        3 => request.with_creator(doubling(random)),
        4 => {
            let count = 1_000 + random.below(500);
            request.with_creator(random_list(random, 4, count))
        }
        _ => {
            let count = 300 + random.below(900);
            request.with_parent(random_list(random, 4, count))
        }
    }
}

/// As often as not.
fn with_long_identities(random: &mut Random, request: Request) -> Request {
    if random.chance(1, 2) {
        return request;
    }
    let sid = nt_sid(&[random.word(); 15]);
    Request {
        owner: sid.clone(),
        group: sid,
        ..request
    }
}

/// Placeholders that pass the limit where owner or group are long enough.
fn growing(random: &mut Random) -> Vec<u8> {
    let plan = EntryPlan::plain(0, 0x03, creator_sid(random.below(2) as u32));
    let count = 400 + random.below(1_200);
    list_of_plans(2, &vec![plan; count])
}

/// By rule 1, what a container's creator asks for would pass the limit if it
/// counted.
fn doubling(random: &mut Random) -> Vec<u8> {
    let plan = EntryPlan::plain(0, 0x03, nt_sid(&[18]));
    let count = 1_700 + random.below(1_500);
    list_of_plans(2, &vec![plan; count])
}

/// A default or creator list whose result is at the limit, or a step from it.
fn near_the_limit(random: &mut Random, request: Request) -> Request {
    let which = random.below(2);
    let placeholder = EntryPlan::plain(0, 0x03, creator_sid(which as u32));
    let put_in = [&request.owner, &request.group][which].len();
    let target = LONGEST_LIST + 4 - 4 * random.below(4);
    let mut missing = target - 8 - 8 - put_in;
    let mut plans = vec![placeholder];
    while missing > 0 {
        // What is left after an entry is again an entry's length, or nothing.
        let most = if missing > 76 + 16 {
            76
        } else {
            missing.min(48)
        };
        let size = if missing - most < 16 { missing } else { most };
        plans.push(EntryPlan::plain(1, 0, nt_sid(&vec![3; (size - 16) / 4])));
        missing -= size;
    }
    let list = good_list(&plans);
    let bare = Request {
        settings: request.settings & !(setting::PARENT | setting::CREATOR),
        ..request
    };
    if random.chance(1, 2) {
        bare.with_default(list)
    } else {
        bare.with_creator(list)
    }
}
