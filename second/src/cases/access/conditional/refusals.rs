//! 14, the list's 1 to 5 and 15, 6, 7, 23: each alone and each with all that
//! would be refused later.

use super::super::make::{READ, allow, of_entries, of_list, person};
use super::{ALLOW, a_is_1, asked_with, entry};
use crate::access::{MOST_HELD, Question};
use crate::cases::build::{EntryPlan, good_list, nt_sid};
use crate::cases::condition::{bad_lists, make::stored, make::table};
use crate::cases::inherit::fault_orders::one_of_each_number;
use crate::condition::Truth;
use crate::records::Case;

pub fn cases() -> Vec<Case> {
    let mut cases = every_set_of_faults();
    cases.extend(by_the_list());
    cases.extend(by_the_table());
    cases
}

/// Of the five stages, the list apart: generic bit, held bytes, their number,
/// table.
const STAGES: u32 = 4;

fn every_set_of_faults() -> Vec<Case> {
    let good = good_list(&[entry(ALLOW, READ, Truth::True)]);
    let empty_expression = EntryPlan {
        expression: stored(Vec::new()),
        ..entry(ALLOW, READ, Truth::True)
    };
    let mut lists = one_of_each_number();
    lists.extend([good_list(&[empty_expression]), good]);
    let mut cases = Vec::new();
    for (turn, list) in lists.into_iter().enumerate() {
        for stages in 0..1 << STAGES {
            let bad = |stage: u32| stages >> stage & 1 == 1;
            let wanted = if bad(0) { READ | 0x8000_0000 } else { READ };
            let mut held = person();
            if bad(1) {
                held = nt_sid(&[]).repeat(MOST_HELD + 1);
            }
            if bad(2) {
                held.push(1);
            }
            let table = if bad(3) { vec![0] } else { a_is_1() };
            let question = of_list(list.clone(), wanted).with_held(held);
            let absent = question.clone().without_list();
            cases.push(asked_with(question, table.clone()));
            // What isn't there has no fault.
            if stages % 4 == turn as u32 % 4 {
                cases.push(asked_with(absent, table));
            }
        }
    }
    cases
}

/// Every bad expression, by either call; the first entry alone would answer.
fn by_the_list() -> Vec<Case> {
    let mut cases = Vec::new();
    for (turn, list) in bad_lists().into_iter().enumerate() {
        let question = of_list(list, [READ, 0][turn % 2]);
        cases.push(Case::MayOpen(question.clone()));
        cases.push(asked_with(question.clone(), a_is_1()));
        cases.push(asked_with(question.without_list(), a_is_1()));
    }
    cases
}

/// Also where nothing is conditional, nothing is wanted, or there is no list.
fn by_the_table() -> Vec<Case> {
    let whole = table(&[("ab", 1), ("b", -1)]);
    let mut tables: Vec<Vec<u8>> = (1..whole.len())
        .map(|length| whole[..length].to_vec())
        .collect();
    let numbered: Vec<String> = (0..33).map(|number| format!("n{number}")).collect();
    let values: Vec<(&str, i64)> = numbered.iter().map(|name| (&name[..], 1)).collect();
    tables.extend([
        table(&[("a", 1), ("a", 1)]),
        table(&[("a", 1), ("b", 1), ("a", 2)]),
        table(&values),
        table(&values[1..]),
        vec![0, 0],
        [vec![1, 0, 0x61], vec![0; 8]].concat(),
    ]);
    let conditional = of_entries(&[entry(ALLOW, READ, Truth::Unknown)], READ);
    let plain = of_entries(&[allow(READ)], READ);
    let questions: [Question; 4] = [
        conditional.clone(),
        plain.clone(),
        conditional.wanting(0),
        plain.without_list(),
    ];
    let mut cases = Vec::new();
    for (turn, table) in tables.into_iter().enumerate() {
        let question = questions[turn % questions.len()].clone();
        cases.push(asked_with(question, table.clone()));
        if turn % 5 == 0 {
            let each = questions.iter().cloned();
            cases.extend(each.map(|question| asked_with(question, table.clone())));
        }
    }
    cases
}
