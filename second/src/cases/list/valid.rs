//! Good lists of every shape.

use super::ample_row;
use crate::cases::build::{
    EntryPlan, MOST_NUMBERS, list_of_plans, nt_sid, random_list, random_sid,
};
use crate::random::Random;
use crate::records::Case;

const TYPES_BY_REVISION: [(u8, u8); 6] = [(0, 2), (1, 2), (0, 4), (1, 4), (5, 4), (6, 4)];

pub fn cases(random: &mut Random) -> Vec<Case> {
    let mut cases = Vec::new();
    cases.extend(every_flag_combination());
    cases.extend(every_sid_length(random));
    cases.extend(every_entry_count(random));
    cases.extend(random_lists(random));
    cases
}

fn single(revision: u8, plan: EntryPlan, place: usize) -> Case {
    Case::read(ample_row(1, place), list_of_plans(revision, &[plan]))
}

fn every_flag_combination() -> Vec<Case> {
    let mut cases = Vec::new();
    for (entry_type, revision) in TYPES_BY_REVISION {
        for flags in 0..32 {
            let word = u32::from(flags) % 4;
            let plan = EntryPlan::object(entry_type, flags, word, nt_sid(&[18]));
            cases.push(single(revision, plan, usize::from(flags)));
        }
    }
    cases
}

fn every_sid_length(random: &mut Random) -> Vec<Case> {
    let mut cases = Vec::new();
    for (entry_type, revision) in TYPES_BY_REVISION {
        let words = if entry_type >= 5 { 0..4 } else { 0..1 };
        for word in words {
            for numbers in 0..=MOST_NUMBERS {
                let sid = random_sid(random, numbers);
                let plan = EntryPlan::object(entry_type, 0x13, word, sid);
                cases.push(single(revision, plan, numbers));
            }
        }
    }
    cases
}

/// Empty lists among them.
fn every_entry_count(random: &mut Random) -> Vec<Case> {
    let mut cases = Vec::new();
    for revision in [2, 4] {
        for count in 0..=20 {
            let list = random_list(random, revision, count);
            cases.extend([0, 2].map(|more| Case::read(count + more, list.clone())));
        }
    }
    cases
}

fn random_lists(random: &mut Random) -> Vec<Case> {
    let mut case = |place: usize| {
        let revision = *random.pick(&[2, 4]);
        let count = 1 + random.below(5);
        let list = random_list(random, revision, count);
        Case::read(ample_row(count, place), list)
    };
    (0..100).map(&mut case).collect()
}
