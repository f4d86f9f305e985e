//! Allow before deny and deny before allow, of the same bits, of some of them
//! and of others, for the person and for strangers.

use super::make::{READ, WRITE, allow, deny, of_entries, of_type, person, stranger};
use crate::access::Question;
use crate::ace::INHERIT_ONLY;
use crate::cases::build::{EntryPlan, nt_sid};

const BOTH: u32 = READ | WRITE;

pub fn questions() -> Vec<Question> {
    let mut questions = pairs();
    questions.extend(triples());
    questions.extend(passed_over());
    questions.extend(by_several_sids());
    questions
}

fn each_entry() -> Vec<EntryPlan> {
    let masks = [READ, WRITE, BOTH].into_iter();
    masks.flat_map(|mask| [allow(mask), deny(mask)]).collect()
}

fn pairs() -> Vec<Question> {
    let mut questions = Vec::new();
    for first in each_entry() {
        for second in each_entry() {
            for wanted in [READ, WRITE, BOTH] {
                let plans = [first.clone(), second.clone()];
                questions.push(of_entries(&plans, wanted));
            }
        }
    }
    questions
}

/// The third would give or deny whatever is left.
fn triples() -> Vec<Question> {
    let mut questions = Vec::new();
    for first in each_entry() {
        for second in each_entry() {
            for third in [allow(BOTH), deny(BOTH)] {
                let plans = [first.clone(), second.clone(), third];
                questions.push(of_entries(&plans, BOTH));
            }
        }
    }
    questions
}

/// What doesn't count stands before, between and behind an allow and a deny:
/// a stranger's entry, one that is IO, one without the bits, one for another
/// object type.
fn passed_over() -> Vec<Question> {
    let mut questions = Vec::new();
    for entry_type in [0, 1] {
        let without_count = [
            of_type(entry_type, BOTH).naming(stranger()),
            EntryPlan {
                flags: INHERIT_ONLY,
                ..of_type(entry_type, BOTH)
            },
            of_type(entry_type, !BOTH),
            EntryPlan {
                entry_type: 5 + entry_type,
                guids: [[0xEE; 16]; 2],
                word: 1,
                ..of_type(entry_type, BOTH)
            },
        ];
        for passed in without_count {
            for counted in [[allow(READ), deny(BOTH)], [deny(READ), allow(BOTH)]] {
                for place in 0..=counted.len() {
                    let mut plans = counted.to_vec();
                    plans.insert(place, passed.clone());
                    for wanted in [READ, WRITE] {
                        questions.push(of_entries(&plans, wanted));
                    }
                }
            }
        }
    }
    questions
}

/// Entries are taken in their order, whatever the order of the held SIDs.
fn by_several_sids() -> Vec<Question> {
    let group = nt_sid(&[32, 544]);
    let mut questions = Vec::new();
    for held in [
        vec![person(), group.clone()],
        vec![group.clone(), person()],
        vec![person()],
        vec![group.clone()],
    ] {
        for entry_types in [[0, 0], [0, 1], [1, 0], [1, 1]] {
            for sids in [[person(), group.clone()], [group.clone(), person()]] {
                let plans =
                    [0, 1].map(|at| of_type(entry_types[at], READ).naming(sids[at].clone()));
                questions.push(of_entries(&plans, READ).holding(&held));
            }
        }
    }
    questions
}
