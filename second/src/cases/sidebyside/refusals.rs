//! Bad lists as the first, as the second and as both, each with what would be
//! refused later.

use super::make::{both_ways, case, fitting, list, numbered};
use crate::cases::build::{list_of, with_spare};
use crate::cases::{condition, inherit};
use crate::list::List;
use crate::records::Case;
use crate::sidebyside::{Lists, MOST_ENTRIES};

pub fn cases() -> Vec<Case> {
    let mut cases = fitting(each_place());
    cases.extend(without_a_row());
    cases.extend(fitting(both_bad()));
    cases.extend(beside_too_many());
    cases.extend(fitting(late_faults()));
    cases
}

/// Each test of the reader, in many ways.
fn bad_lists() -> Vec<Vec<u8>> {
    let mut lists = inherit::refusals::bad_lists();
    lists.extend(condition::bad_lists());
    lists
}

/// One for each number.
fn one_of_each() -> Vec<Vec<u8>> {
    let mut numbers = Vec::new();
    let mut lists = bad_lists();
    lists.retain(|list| {
        let number = List::parse(list).map_or_else(|refusal| refusal.fault.number(), |_| 0);
        let is_new = number != 0 && !numbers.contains(&number);
        numbers.push(number);
        is_new
    });
    assert_eq!(lists.len(), 6, "1 to 5 and 15");
    lists
}

/// Beside a list that is good: some entries, none, and spare bytes.
fn each_place() -> Vec<Lists> {
    let good = [list("ab"), list(""), with_spare(&list("c"), &[0xEE])];
    let mut pairs = Vec::new();
    for (turn, bad) in bad_lists().into_iter().enumerate() {
        let good = good[turn % good.len()].clone();
        pairs.extend(both_ways((bad, good)));
    }
    pairs
}

/// A row that is too short for anything comes later.
fn without_a_row() -> Vec<Case> {
    let pairs = one_of_each().into_iter().map(|bad| (bad, list("ab")));
    let pairs = pairs.flat_map(both_ways);
    pairs.map(|lists| case(&lists, 0)).collect()
}

/// The same one twice, and one of each against one of each: the first decides.
fn both_bad() -> Vec<Lists> {
    let mut pairs: Vec<Lists> = bad_lists()
        .into_iter()
        .map(|bad| (bad.clone(), bad))
        .collect();
    for first in one_of_each() {
        for second in one_of_each() {
            pairs.push((first.clone(), second));
        }
    }
    pairs
}

/// 129 entries beside a bad list, whichever comes first; and 129 with the last
/// one bad.
fn beside_too_many() -> Vec<Case> {
    let mut entries: Vec<Vec<u8>> = (0..=MOST_ENTRIES as u32).map(numbered).collect();
    let many = list_of(2, &entries);
    let mut cases = Vec::new();
    for bad in one_of_each() {
        for lists in both_ways((bad, many.clone())) {
            cases.push(case(&lists, 2));
        }
    }
    entries[MOST_ENTRIES][1] = 0x80;
    let last_bad = list_of(2, &entries);
    for lists in both_ways((last_bad, list("a"))) {
        cases.push(case(&lists, 0));
    }
    cases
}

/// The last of several entries is bad, or hidden by the count and then isn't
/// looked at.
fn late_faults() -> Vec<Lists> {
    let word = "abcabcab";
    let mut pairs = Vec::new();
    for letters in 1..=word.len() {
        let good = list(&word[..letters]);
        let parsed = List::parse(&good).expect("it is good");
        let last = parsed.entries[letters - 1].offset;
        for (at, value) in [(0, 7), (1, 0x20), (2, 15), (8, 0)] {
            let mut bad = good.clone();
            bad[last + at] = value;
            let mut hidden = bad.clone();
            hidden[4] -= 1;
            pairs.extend(both_ways((bad, good.clone())));
            pairs.push((hidden, good.clone()));
        }
    }
    pairs
}
