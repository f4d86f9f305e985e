//! Every row of document 01's table, by all settings and all rules.

use super::ways::{bare, some_creator, some_default, some_parent};
use super::{BOTH_RULES, KINDS, all_fitting};
use crate::cases::build::{EntryPlan, good_list, nt_sid};
use crate::computing::{Request, setting};
use crate::random::Random;
use crate::records::Case;

const EMPTY: [u8; 8] = [2, 0, 8, 0, 0, 0, 0, 0];
const EMPTY_REVISION_4: [u8; 8] = [4, 0, 8, 0, 0, 0, 0, 0];

pub fn cases(random: &mut Random) -> Vec<Case> {
    let mut requests = all_settings(random);
    requests.extend(absent_and_empty(random));
    requests.extend(inheritable_and_not_applying());
    all_fitting(requests)
}

/// Settings past those that have a meaning are set too, and where a list is
/// absent its bytes are there all the same, good or not.
fn all_settings(random: &mut Random) -> Vec<Request> {
    let mut requests = Vec::new();
    for parent in [some_parent(), not_inheritable(), one_sided_parent()] {
        for rule in BOTH_RULES {
            for settings in 0..=setting::ALL {
                let request = Request {
                    rule,
                    settings,
                    parent: parent.clone(),
                    creator: some_creator(),
                    default_list: some_default(),
                    ..bare()
                };
                requests.push(disturbed(random, request));
            }
        }
    }
    requests
}

fn disturbed(random: &mut Random, request: Request) -> Request {
    let mut bytes = |present: bool, list: Vec<u8>| match random.below(3) {
        _ if present => list,
        0 => list,
        1 => Vec::new(),
        _ => {
            let length = 1 + random.below(24);
            random.bytes(length)
        }
    };
    let parent = bytes(request.has(setting::PARENT), request.parent.clone());
    let creator = bytes(request.has(setting::CREATOR), request.creator.clone());
    let default_list = bytes(
        request.has(setting::DEFAULT_LIST),
        request.default_list.clone(),
    );
    let unknown_settings = match random.below(3) {
        0 => 0,
        1 => !setting::ALL,
        _ => random.word() & !setting::ALL,
    };
    Request {
        parent,
        creator,
        default_list,
        ..request
    }
    .with(unknown_settings)
}

/// All flags but OI and CI.
fn not_inheritable() -> Vec<u8> {
    good_list(&[EntryPlan::plain(0, 0x1C, nt_sid(&[5]))])
}

/// Its inheritable entry stands behind another, and passes by NP on to no
/// object below.
fn one_sided_parent() -> Vec<u8> {
    good_list(&[
        EntryPlan::plain(1, 0x00, nt_sid(&[])),
        EntryPlan::plain(0, 0x06, nt_sid(&[1])),
    ])
}

/// Each of the three absent, empty, or with entries.
fn absent_and_empty(random: &mut Random) -> Vec<Request> {
    let choices = |entries: Vec<u8>| [None, Some(EMPTY.to_vec()), Some(entries)];
    let mut requests = Vec::new();
    for parent in choices(some_parent()) {
        for creator in choices(some_creator()) {
            for default_list in choices(some_default()) {
                for settings in [
                    0,
                    setting::CONTAINER | setting::AUTO_INHERIT,
                    setting::DEFAULT_DESCRIPTOR,
                ] {
                    let mut request = bare().with(settings);
                    request.rule = *random.pick(&BOTH_RULES);
                    if let Some(list) = &parent {
                        request = request.with_parent(list.clone());
                    }
                    if let Some(list) = &creator {
                        request = request.with_creator(list.clone());
                    }
                    if let Some(list) = &default_list {
                        request = request.with_default(list.clone());
                    }
                    requests.push(request);
                }
            }
        }
    }
    for rule in BOTH_RULES {
        let list = EMPTY_REVISION_4.to_vec();
        requests.push(bare().with_rule(rule).with_creator(list.clone()));
        requests.push(bare().with_rule(rule).with_default(list));
    }
    requests
}

/// A present empty list, and control 0400 also where P adds no entry.
fn inheritable_and_not_applying() -> Vec<Request> {
    let mut requests = Vec::new();
    let object = EntryPlan::object(5, 0x03, 1, nt_sid(&[18]));
    let passed_over = [
        (0, EntryPlan::plain(0, 0x02, nt_sid(&[18]))),
        (0, object.clone()),
        (setting::CONTAINER, EntryPlan::plain(0, 0x05, nt_sid(&[18]))),
        (setting::CONTAINER, EntryPlan { flags: 7, ..object }),
    ];
    for (kind, plan) in passed_over {
        for rule in BOTH_RULES {
            let alone = bare()
                .with_rule(rule)
                .with_parent(good_list(std::slice::from_ref(&plan)))
                .with_default(some_default())
                .with(kind);
            let beside = alone.clone().with_creator(some_creator());
            let automatic = beside.clone().with(setting::AUTO_INHERIT);
            let protected = automatic.clone().with(setting::PROTECTED);
            let empty = alone.clone().with_creator(EMPTY.to_vec());
            let empty_automatic = empty.clone().with(setting::AUTO_INHERIT);
            requests.extend([alone, beside, automatic, protected, empty, empty_automatic]);
        }
    }
    for kind in KINDS {
        requests.push(bare().with_parent(EMPTY.to_vec()).with(kind));
    }
    requests
}
