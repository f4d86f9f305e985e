//! Rooms that are exactly enough, one byte short, longer, or of no bytes.

use super::ways::{Way, bare, some_creator, some_default, some_parent};
use super::{BOTH_RULES, result_length};
use crate::cases::build::{EntryPlan, creator_sid, good_list, nt_sid};
use crate::computing::{Request, setting};
use crate::records::Case;

pub fn cases() -> Vec<Case> {
    let mut cases = Vec::new();
    for rule in BOTH_RULES {
        for request in subjects() {
            cases.extend(about_the_result(request.with_rule(rule)));
        }
        cases.extend(absent_results(rule));
    }
    cases
}

/// By every row of the table: empty results, short ones, ones that grew and
/// ones that shrank.
fn subjects() -> Vec<Request> {
    let empty = || good_list(&[]);
    let long_creator = || good_list(&vec![EntryPlan::plain(0, 0x03, nt_sid(&[9; 15])); 3]);
    let not_applying = || good_list(&[EntryPlan::plain(0, 0x02, nt_sid(&[1]))]);
    let alike = |which| good_list(&vec![EntryPlan::plain(0, 0x03, creator_sid(which)); 2]);
    let beside = |creator| bare().with_parent(some_parent()).with_creator(creator);
    let mut subjects = vec![
        bare().with_default(empty()),
        bare().with_creator(empty()),
        bare().with_parent(not_applying()),
        // By rule 1 the creator's part never counts for the room.
        beside(long_creator()).with(setting::CONTAINER),
        beside(long_creator()).with(setting::AUTO_INHERIT),
        beside(some_creator()).with(setting::AUTO_INHERIT | setting::CONTAINER),
        beside(empty()).with(setting::AUTO_INHERIT),
        bare().with_default(some_default()),
        bare().with_creator(some_creator()),
    ];
    for which in [0, 1] {
        for way in [Way::ParentAlone, Way::OwnAlone, Way::DefaultList] {
            subjects.push(way.request(alike(which), 0).with(setting::CONTAINER));
        }
    }
    subjects
}

/// Also the length of the list that the result came from, grown or shrunk.
fn about_the_result(request: Request) -> Vec<Case> {
    let length = result_length(&request).expect("the subjects are good");
    let given = [&request.parent, &request.creator, &request.default_list];
    let longest = given.into_iter().map(Vec::len).max().unwrap_or(0);
    let rooms = [
        0,
        7,
        8,
        length - 4,
        length - 1,
        length,
        length + 1,
        length + 25,
        longest,
    ];
    rooms
        .map(|room| Case::Compute {
            request: request.clone(),
            room,
        })
        .to_vec()
}

/// An absent result needs no room.
fn absent_results(rule: u32) -> Vec<Case> {
    let not_inheritable = good_list(&[EntryPlan::plain(0, 0x10, nt_sid(&[5]))]);
    let bare = bare().with_rule(rule);
    let subjects = [bare.clone(), bare.with_parent(not_inheritable)];
    let mut cases = Vec::new();
    for request in subjects {
        for room in [0, 1, 7, 8, 40] {
            let request = request.clone();
            cases.push(Case::Compute { request, room });
        }
    }
    cases
}
