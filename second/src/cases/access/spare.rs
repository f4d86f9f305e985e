//! Spare bytes behind the entries, also such as look like an entry.

use super::make::{READ, WRITE, allow, deny, of_list, of_type, stranger};
use crate::access::Question;
use crate::cases::build::{
    EntryPlan, good_list, list_of_plans, random_spare, with_count, with_spare,
};
use crate::random::Random;

pub fn questions(random: &mut Random) -> Vec<Question> {
    let mut questions = entries_in_them();
    questions.extend(hidden_entries());
    questions.extend(short_lengths(random));
    questions
}

/// Behind each list an entry that would change the answer, if it counted.
fn entries_in_them() -> Vec<Question> {
    let lists = [
        vec![],
        vec![allow(READ)],
        vec![deny(READ)],
        vec![allow(READ), deny(WRITE)],
        vec![allow(READ).naming(stranger())],
    ];
    let mut questions = Vec::new();
    for plans in &lists {
        for entry_type in [0, 1, 5, 6] {
            let behind = of_type(entry_type, READ | WRITE);
            let list = with_spare(&list_of_plans(4, plans), &behind.bytes());
            for wanted in [READ, WRITE, READ | WRITE] {
                questions.push(of_list(list.clone(), wanted));
            }
        }
    }
    questions
}

/// Every count of the same four entries.
fn hidden_entries() -> Vec<Question> {
    let orders: [[EntryPlan; 4]; 2] = [
        [deny(WRITE), allow(READ), deny(READ), allow(WRITE)],
        [
            allow(WRITE).naming(stranger()),
            deny(4),
            allow(READ),
            allow(WRITE),
        ],
    ];
    let mut questions = Vec::new();
    for plans in &orders {
        for count in 0..=plans.len() {
            let list = with_count(&good_list(plans), count);
            for wanted in [READ, WRITE, READ | WRITE] {
                questions.push(of_list(list.clone(), wanted));
            }
        }
    }
    questions
}

fn short_lengths(random: &mut Random) -> Vec<Question> {
    let list = good_list(&[allow(READ)]);
    (1..=30)
        .map(|length| {
            let spare = random_spare(random, length);
            let wanted = [READ, WRITE][length % 2];
            of_list(with_spare(&list, &spare), wanted)
        })
        .collect()
}
