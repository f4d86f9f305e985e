//! Owners and groups of every length, so that results grow and shrink.

use super::all_fitting;
use super::ways::Way;
use crate::cases::build::{EntryPlan, MOST_NUMBERS, creator_sid, good_list, nt_sid, random_sid};
use crate::computing::{Request, setting};
use crate::identity;
use crate::random::Random;
use crate::records::Case;

pub fn cases(random: &mut Random) -> Vec<Case> {
    let mut requests = Vec::new();
    for numbers in 0..=MOST_NUMBERS {
        let pairs = [
            (numbers, MOST_NUMBERS - numbers),
            (numbers, numbers),
            (numbers, 1),
            (1, numbers),
        ];
        for (turn, (of_owner, of_group)) in pairs.into_iter().enumerate() {
            for way in [
                Way::OF_PARENT[turn],
                Way::OF_CREATOR[numbers % Way::OF_CREATOR.len()],
                Way::DefaultList,
            ] {
                let owner = ordinary_sid(random, of_owner);
                let group = ordinary_sid(random, of_group);
                let request = way.request(placeholders(), turn + numbers);
                let kind = random.word() & setting::CONTAINER;
                requests.push(Request {
                    owner,
                    group,
                    ..request.with(kind)
                });
            }
        }
    }
    all_fitting(requests)
}

pub fn ordinary_sid(random: &mut Random, numbers: usize) -> Vec<u8> {
    let mut sid = random_sid(random, numbers);
    while identity::classify(&sid) != 0 {
        sid = random_sid(random, numbers);
    }
    sid
}

fn placeholders() -> Vec<u8> {
    good_list(&[
        EntryPlan::plain(0, 0x03, creator_sid(0)),
        EntryPlan::plain(1, 0x03, creator_sid(1)),
        EntryPlan::plain(1, 0x02, nt_sid(&[18])),
    ])
}
