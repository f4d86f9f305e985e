//! Several faults at once: the order of the tests decides.

use crate::cases::build::{
    EntryPlan, fix_size, list_of, list_of_plans, nt_sid, set_count, set_size,
};
use crate::cases::spoil::{Spoil, one_of_each, spoilt};
use crate::records::Case;

const COUNT: usize = 3;

pub fn cases() -> Vec<Case> {
    let plain = EntryPlan::plain(1, 0x02, nt_sid(&[18]));
    let object = EntryPlan::object(6, 0x01, 1, nt_sid(&[18]));
    let mut cases = Vec::new();
    for plan in [&plain, &object] {
        cases.extend(in_one_entry(plan));
        cases.extend(header_and_entry(plan));
        cases.extend(count_and_entry(plan));
        cases.extend(tail_and_entry(plan));
        cases.extend(short_row_and_entry(plan));
    }
    cases.extend(three_in_one_entry(&object));
    cases.extend(in_two_entries(&object));
    cases.extend(object_type_under_revision_2_and_more(&object));
    cases
}

/// Three entries by the plan, some of them spoilt.
fn list_with(plan: &EntryPlan, changes: &[(usize, &[Spoil])]) -> Vec<u8> {
    let mut entries = vec![plan.bytes(); COUNT];
    for (place, spoils) in changes {
        entries[*place] = spoilt(plan, spoils);
    }
    list_of(4, &entries)
}

fn pairs(spoils: &[Spoil]) -> Vec<Vec<Spoil>> {
    let mut pairs = Vec::new();
    for (place, first) in spoils.iter().enumerate() {
        pairs.extend(spoils[place + 1..].iter().map(|later| vec![*first, *later]));
    }
    pairs
}

fn triples(spoils: &[Spoil]) -> Vec<Vec<Spoil>> {
    let mut triples = Vec::new();
    for (place, first) in spoils.iter().enumerate() {
        for pair in pairs(&spoils[place + 1..]) {
            triples.push([vec![*first], pair].concat());
        }
    }
    triples
}

/// Pairs in both orders, since the later of two sizes stands.
fn in_one_entry(plan: &EntryPlan) -> Vec<Case> {
    let spoils = one_of_each(plan);
    let mut reversed = spoils.clone();
    reversed.reverse();
    let in_order = pairs(&spoils).into_iter().map(|pair| (0, pair));
    let in_reverse = pairs(&reversed).into_iter().map(|pair| (COUNT - 1, pair));
    in_order
        .chain(in_reverse)
        .map(|(place, pair)| Case::read(COUNT, list_with(plan, &[(place, &pair)])))
        .collect()
}

fn three_in_one_entry(plan: &EntryPlan) -> Vec<Case> {
    triples(&one_of_each(plan))
        .iter()
        .map(|triple| Case::read(COUNT, list_with(plan, &[(1, triple)])))
        .collect()
}

fn in_two_entries(plan: &EntryPlan) -> Vec<Case> {
    let spoils = one_of_each(plan);
    let mut cases = Vec::new();
    for first in &spoils {
        for later in &spoils {
            for (place, later_place) in [(0, 2), (1, 2)] {
                let changes: [(usize, &[Spoil]); 2] =
                    [(place, &[*first]), (later_place, &[*later])];
                cases.push(Case::read(COUNT, list_with(plan, &changes)));
            }
        }
    }
    cases
}

fn header_and_entry(plan: &EntryPlan) -> Vec<Case> {
    let header_changes = [(0, 3), (1, 1), (2, 9), (6, 1), (7, 0x80)];
    let mut cases = Vec::new();
    for spoil in one_of_each(plan) {
        for (at, value) in header_changes {
            let mut list = list_with(plan, &[(0, &[spoil])]);
            list[at] = value;
            cases.push(Case::read(COUNT, list));
        }
    }
    cases
}

/// A bad entry that the count leaves out is never looked at.
fn count_and_entry(plan: &EntryPlan) -> Vec<Case> {
    let mut cases = Vec::new();
    for spoil in one_of_each(plan) {
        for count in [0, COUNT - 1, COUNT + 1, 0xFFFF] {
            let mut list = list_with(plan, &[(COUNT - 1, &[spoil])]);
            set_count(&mut list, count);
            cases.push(Case::read(COUNT, list));
        }
    }
    cases
}

fn tail_and_entry(plan: &EntryPlan) -> Vec<Case> {
    let mut cases = Vec::new();
    for spoil in one_of_each(plan) {
        for tail in [1, 20] {
            let mut list = list_with(plan, &[(COUNT - 1, &[spoil])]);
            list.extend(vec![0; tail]);
            fix_size(&mut list);
            cases.push(Case::read(COUNT, list));
        }
    }
    cases
}

fn short_row_and_entry(plan: &EntryPlan) -> Vec<Case> {
    let mut cases = Vec::new();
    for spoil in one_of_each(plan) {
        for row_length in [0, COUNT - 1] {
            let list = list_with(plan, &[(1, &[spoil])]);
            cases.push(Case::read(row_length, list));
        }
    }
    for row_length in [0, COUNT - 1] {
        let mut list = list_of_plans(4, &vec![plan.clone(); COUNT]);
        set_size(&mut list, 8);
        cases.push(Case::read(row_length, list));
    }
    cases
}

fn object_type_under_revision_2_and_more(plan: &EntryPlan) -> Vec<Case> {
    let mut cases = Vec::new();
    for spoil in one_of_each(plan) {
        for place in 0..COUNT {
            let mut list = list_with(plan, &[(place, &[spoil])]);
            list[0] = 2;
            cases.push(Case::read(COUNT, list));
        }
    }
    cases
}
