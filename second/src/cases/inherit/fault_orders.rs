//! Several faults at once: the order rule, parent, creator, default, owner,
//! group, types, room decides.

use super::SOME_ROOM;
use super::refusals::{BAD_RULES, bad_lists, bad_sids};
use super::ways::bare;
use crate::cases::build::{EntryPlan, creator_sid, good_list, nt_sid};
use crate::computing::Request;
use crate::list::List;
use crate::random::Random;
use crate::records::Case;

const STAGES: u32 = 8;
const WRONG_TYPE_LENGTHS: [usize; 6] = [1, 15, 17, 63, 65, 80];

pub fn cases(random: &mut Random) -> Vec<Case> {
    let faults = Faults {
        lists: bad_lists(),
        sids: bad_sids(random),
    };
    let mut cases = every_pair_of_numbers();
    for stages in 0..1 << STAGES {
        cases.push(faults.at(random, stages));
        // Two faults or three are told apart less surely by one case.
        if (2..=3).contains(&u32::count_ones(stages)) {
            cases.push(faults.at(random, stages));
        }
    }
    cases
}

struct Faults {
    lists: Vec<Vec<u8>>,
    sids: Vec<Vec<u8>>,
}

impl Faults {
    /// Bad at these stages, good at the others; the result needs more than
    /// the room has where the last stage is bad.
    fn at(&self, random: &mut Random, stages: u32) -> Case {
        let bad = |stage: u32| stages >> stage & 1 == 1;
        let mut list = |stage: u32| {
            if bad(stage) {
                random.pick(&self.lists).clone()
            } else {
                good()
            }
        };
        let (parent, creator, default_list) = (list(1), list(2), list(3));
        let mut request = bare()
            .with_rule(1 + random.below(2) as u32)
            .with_parent(parent)
            .with_creator(creator)
            .with_default(default_list)
            .with(random.word() << 3);
        if bad(0) {
            request.rule = *random.pick(&BAD_RULES);
        }
        if bad(4) {
            request.owner = random.pick(&self.sids).clone();
        }
        if bad(5) {
            request.group = random.pick(&self.sids).clone();
        }
        if bad(6) {
            let length = *random.pick(&WRONG_TYPE_LENGTHS);
            request.types = random.bytes(length);
        }
        let room = if bad(7) { random.below(8) } else { 100 };
        Case::Compute { request, room }
    }
}

fn good() -> Vec<u8> {
    good_list(&[EntryPlan::plain(0, 0x03, creator_sid(0))])
}

/// One bad list for each of the numbers 1 to 5.
pub fn one_of_each_number() -> Vec<Vec<u8>> {
    let lists = bad_lists();
    let number = |list: &[u8]| List::parse(list).err().map(|why| why.fault.number());
    let first_with = |wanted| {
        let mut of_number = lists.iter().filter(|list| number(list) == Some(wanted));
        of_number.next().expect("every number has a list").clone()
    };
    (1..=5).map(first_with).collect()
}

/// Two of the three lists bad by each pair of numbers.
fn every_pair_of_numbers() -> Vec<Case> {
    let lists = one_of_each_number();
    let mut requests: Vec<Request> = Vec::new();
    for first in &lists {
        for later in &lists {
            let subject = bare().with_creator(good_list(&[EntryPlan::plain(0, 0, nt_sid(&[]))]));
            requests.push(
                bare()
                    .with_parent(first.clone())
                    .with_creator(later.clone()),
            );
            requests.push(
                subject
                    .with_parent(first.clone())
                    .with_default(later.clone()),
            );
            requests.push(
                bare()
                    .with_parent(good())
                    .with_creator(first.clone())
                    .with_default(later.clone()),
            );
        }
    }
    let room = SOME_ROOM;
    requests
        .into_iter()
        .map(|request| Case::Compute { request, room })
        .collect()
}
