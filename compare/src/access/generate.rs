//! Fresh random questions, steps and walks.

use super::share::share;
use crate::list::generate as reading;
use crate::mutate::{bad_list, conditional_at_times, mutate_identity, mutate_list, tokens};
use second::access::{MOST_HELD, Question};
use second::cases::access::fresh;
use second::cases::build::{
    EntryPlan, MOST_NUMBERS, fix_size, hiding_some, list_of, nt_sid, random_list, random_sid,
    random_spare, with_spare,
};
use second::cases::condition::damage;
use second::cases::condition::fresh::Attributes;
use second::list::{HEADER_LENGTH, List};
use second::random::Random;
use second::records::LONGEST_HELD;

const LONGEST_LIST: usize = 65_535;
/// Of the lists of most questions.
const FEW_ENTRIES: usize = 6;
const MANY_ENTRIES: usize = 40;

pub enum Subject {
    Question {
        question: Question,
        /// What is known of the person.
        table: Vec<u8>,
        /// Parts that are the same bytes are to be one range.
        together: bool,
    },
    Step {
        list: Vec<u8>,
        place: u32,
    },
    /// From the list's beginning to where no entry is left.
    Walk(Vec<u8>),
}

pub fn subject(random: &mut Random) -> Subject {
    match random.below(8) {
        0 => {
            let list = step_list(random);
            let place = place(random, &list);
            Subject::Step { list, place }
        }
        1 => Subject::Walk(walk_list(random)),
        _ => {
            let attributes = Attributes::draw(random);
            let together = random.chance(1, 8);
            let question = question(random, &attributes, together);
            Subject::Question {
                question,
                table: table(random, &attributes),
                together,
            }
        }
    }
}

/// None at all as often as not; one in eight is spoilt.
fn table(random: &mut Random, attributes: &Attributes) -> Vec<u8> {
    if random.chance(1, 2) {
        return Vec::new();
    }
    let mut table = attributes.table(random);
    if random.chance(1, 8) {
        damage::table(random, &mut table);
    }
    table
}

fn question(random: &mut Random, attributes: &Attributes, together: bool) -> Question {
    let most = match random.below(30) {
        0 => MANY_ENTRIES,
        _ => FEW_ENTRIES,
    };
    let mut question = fresh::question(random, most);
    if random.chance(2, 3) {
        let tokens = tokens(random);
        question.list = attributes.under_conditions(random, &question.list, tokens);
    }
    if random.chance(1, 400) {
        question.list = behind_many(random, &question.list);
    }
    if random.chance(1, 4) && question.list.len() >= HEADER_LENGTH {
        question.list = roomy(random, &question);
    }
    if together {
        share(random, &mut question);
    }
    if random.chance(1, 3) {
        for _ in 0..1 + random.below(3) {
            spoil(random, &mut question);
        }
    }
    question
}

/// The same entries behind hundreds of others; a list that is not looked at
/// stays as it is.
fn behind_many(random: &mut Random, list: &[u8]) -> Vec<u8> {
    let Ok(parsed) = List::parse(list) else {
        return list.to_vec();
    };
    let last = parsed.entries.iter().map(|entry| entry.bytes.to_vec());
    let mut room = random.below(LONGEST_LIST - list.len());
    let mut entries = Vec::new();
    loop {
        let numbers = 4 + random.below(MOST_NUMBERS - 3);
        let plan = EntryPlan::random(random, true).naming(random_sid(random, numbers));
        if plan.size() > room {
            break;
        }
        room -= plan.size();
        entries.push(plan.bytes());
    }
    entries.extend(last);
    list_of(4, &entries)
}

/// Spare bytes, entries that a smaller count hides, or an entry for a held SID
/// behind the others.
fn roomy(random: &mut Random, question: &Question) -> Vec<u8> {
    let list = &question.list;
    let left = LONGEST_LIST.saturating_sub(list.len());
    let length = match random.below(400) {
        0 => left,
        1 => random.below(left + 1),
        2..20 => random.below(2_000),
        20..140 => return hiding_some(random, list),
        140..220 => return with_spare(list, &entry_that_would_count(random, question)),
        _ => 1 + random.below(40),
    };
    with_spare(list, &random_spare(random, length.min(left)))
}

fn entry_that_would_count(random: &mut Random, question: &Question) -> Vec<u8> {
    let held = second::access::held_sids(&question.held).unwrap_or_default();
    let sid = held.first().map_or_else(|| nt_sid(&[]), |sid| sid.to_vec());
    let plan = EntryPlan {
        mask: question.wanted,
        ..EntryPlan::plain(random.below(2) as u8, 0, sid)
    };
    plan.bytes()
}

fn spoil(random: &mut Random, question: &mut Question) {
    match random.below(16) {
        0..4 => question.wanted |= generic(random),
        4..7 => question.list = bad_list(random),
        7..9 => spoil_list(random, &mut question.list),
        9..13 => spoil_held(random, &mut question.held),
        13..15 => hold_more(random, &mut question.held),
        _ => question.has_list = 0,
    }
}

fn generic(random: &mut Random) -> u32 {
    match random.below(3) {
        0 => (random.word() & 0xF000_0000).max(0x1000_0000),
        _ => 0x1000_0000 << random.below(4),
    }
}

fn spoil_list(random: &mut Random, list: &mut Vec<u8>) {
    if list.len() < HEADER_LENGTH || random.chance(1, 20) {
        let length = random.below(40);
        *list = random.bytes(length);
        return;
    }
    mutate_list(random, list);
    if random.chance(1, 40) {
        // Its size, cut to 16 bits, may still be what it says.
        list.resize(list.len() + 0x1_0000 - 8 * random.below(2), 0);
        if random.chance(1, 2) {
            fix_size(list);
        }
    }
}

/// Junk behind, a change in one of them, or a cut.
fn spoil_held(random: &mut Random, held: &mut Vec<u8>) {
    match random.below(5) {
        0 => {
            let length = 1 + random.below(12);
            held.extend(random.bytes(length));
        }
        1 => {
            let numbers = random.below(4);
            let sid = random_sid(random, numbers);
            held.extend(mutate_identity(random, sid));
        }
        2 => held.truncate(random.below(held.len() + 1)),
        _ if held.is_empty() => held.push(1),
        3 => {
            let at = random.below(held.len());
            held[at] ^= 1 << random.below(8);
        }
        _ => {
            let n = random.byte();
            held.splice(0..0, [1, n, 0, 0, 0, 0, 0, 5]);
        }
    }
    held.truncate(LONGEST_HELD);
}

/// To about as many as are allowed, and some more.
fn hold_more(random: &mut Random, held: &mut Vec<u8>) {
    let count = MOST_HELD - 2 + random.below(6);
    for _ in 0..count {
        let numbers = random.below(3);
        let sid = random_sid(random, numbers);
        held.splice(0..0, sid);
    }
}

/// As the reader's own, and more that are good.
fn step_list(random: &mut Random) -> Vec<u8> {
    if random.chance(1, 2) {
        return reading::list(random).0;
    }
    walk_list(random)
}

/// Good, one in three with spare bytes.
fn walk_list(random: &mut Random) -> Vec<u8> {
    let count = match random.below(60) {
        0 => random.below(100),
        1..10 => random.below(20),
        _ => random.below(6),
    };
    let revision = *random.pick(&[2, 4, 4]);
    let list = random_list(random, revision, count);
    let list = conditional_at_times(random, list);
    match random.below(6) {
        0 => hiding_some(random, &list),
        1 => {
            let length = 1 + random.below(40);
            with_spare(&list, &random_spare(random, length))
        }
        _ => list,
    }
}

/// About where an entry begins or the entries end, also by the lower 16 bits
/// alone; or anywhere.
fn place(random: &mut Random, list: &[u8]) -> u32 {
    let mut telling = vec![0, list.len() as u32];
    if let Ok(parsed) = List::parse(list) {
        let begins = parsed.entries.iter().map(|entry| entry.offset as u32);
        telling.extend(begins.chain([parsed.end as u32]));
    }
    let near = *random.pick(&telling);
    match random.below(12) {
        0 => 0,
        1 => random.word(),
        2 => u32::MAX - random.below(3) as u32,
        3 => near | 0x1_0000 << random.below(16),
        4 => near.saturating_sub(1),
        5 => near + 1,
        6 => random.below(list.len() + 8) as u32,
        _ => near,
    }
}
