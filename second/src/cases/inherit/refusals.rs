//! One fault at a time.

use super::ways::{bare, some_creator, some_default, some_parent};
use super::{BOTH_RULES, all_fitting};
use crate::cases::build::{
    EntryPlan, creator_sid, fix_size, good_list, list_of, nt_sid, set_count, set_size,
};
use crate::cases::list::identities::{too_many_numbers, wrong_first_bytes, wrong_lengths};
use crate::cases::spoil::{Spoil, one_of_each, spoilt};
use crate::computing::{Request, setting};
use crate::random::Random;
use crate::records::{Case, LONGEST_OTHER};

pub const BAD_RULES: [u32; 8] = [0, 3, 4, 0x81, 0x0101, 0x0001_0002, 0x8000_0001, u32::MAX];

pub fn cases(random: &mut Random) -> Vec<Case> {
    let mut requests = Vec::new();
    requests.extend(bad_rules());
    requests.extend(bad_lists_present());
    requests.extend(bad_lists_absent());
    requests.extend(bad_identities(random));
    requests.extend(type_lengths(random));
    all_fitting(requests)
}

fn bad_rules() -> Vec<Request> {
    let by_rule = |rule| good_in_every_row().map(|request| request.with_rule(rule));
    BAD_RULES.into_iter().flat_map(by_rule).collect()
}

/// Each test of the reader, in the header, in the first and in the last entry.
pub fn bad_lists() -> Vec<Vec<u8>> {
    let plain = EntryPlan::plain(0, 0x03, creator_sid(0));
    let object = EntryPlan::object(6, 0x02, 1, nt_sid(&[18]));
    let good = good_list(&[plain.clone(), object.clone()]);
    let mut lists = vec![Vec::new(), good[..7].to_vec(), good[..8].to_vec()];
    for (at, value) in [(0, 3), (0, 5), (0, 2), (1, 1), (6, 1), (7, 0x80)] {
        let mut list = good.clone();
        list[at] = value;
        lists.push(list);
    }
    for count in [4, 0xFFFF, 3] {
        let mut list = good.clone();
        set_count(&mut list, count);
        lists.push(list);
    }
    let mut short_size = good.clone();
    set_size(&mut short_size, 8);
    let mut with_tail = [&good[..], &[0]].concat();
    lists.extend([short_size, with_tail.clone()]);
    // A spare byte helps no bad entry.
    fix_size(&mut with_tail);
    with_tail[9] |= 0x20;
    lists.push(with_tail);
    for spoil in one_of_each(&plain) {
        lists.push(list_of(4, &[spoilt(&plain, &[spoil]), object.bytes()]));
    }
    let highest_bit = Spoil::Word(0x8000_0001);
    for spoil in one_of_each(&object).into_iter().chain([highest_bit]) {
        lists.push(list_of(4, &[plain.bytes(), spoilt(&object, &[spoil])]));
    }
    lists
}

/// Each list where its row uses it, and where it doesn't.
fn bad_lists_present() -> Vec<Request> {
    let mut requests = Vec::new();
    for (turn, list) in bad_lists().into_iter().enumerate() {
        let bare = bare().with_rule(BOTH_RULES[turn % 2]);
        let inheriting = bare.clone().with_parent(some_parent());
        let created = bare.clone().with_creator(some_creator());
        requests.extend([
            bare.clone().with_parent(list.clone()),
            created
                .clone()
                .with_parent(list.clone())
                .with(setting::PROTECTED),
            bare.clone().with_creator(list.clone()),
            inheriting
                .clone()
                .with_creator(list.clone())
                .with(setting::DEFAULT_DESCRIPTOR),
            bare.with_default(list.clone()),
            inheriting.with_default(list.clone()),
            created.with_default(list),
        ]);
    }
    requests
}

/// The same bytes for a list that is absent are not looked at.
fn bad_lists_absent() -> Vec<Request> {
    let mut requests = Vec::new();
    for (turn, list) in bad_lists().into_iter().enumerate().step_by(2) {
        let bare = bare().with_rule(BOTH_RULES[turn / 2 % 2]);
        let without = |mut request: Request, list: u32| {
            request.settings &= !list;
            request
        };
        let with_others = bare
            .with_parent(list.clone())
            .with_creator(some_creator())
            .with_default(some_default());
        let no_parent = without(with_others, setting::PARENT);
        let no_creator = without(
            no_parent.clone().with_creator(list.clone()),
            setting::CREATOR,
        );
        let no_default = without(no_creator.clone().with_default(list), setting::DEFAULT_LIST);
        requests.extend([no_parent, no_creator, no_default]);
    }
    requests
}

pub fn bad_sids(random: &mut Random) -> Vec<Vec<u8>> {
    let mut sids = vec![creator_sid(0), creator_sid(1), creator_sid(0).repeat(2)];
    sids.extend(wrong_first_bytes(random));
    sids.extend(too_many_numbers(random));
    sids.extend(wrong_lengths(random));
    sids.retain(|sid| sid.len() <= LONGEST_OTHER);
    sids
}

/// As owner, as group and as both, also where the result has no use for them.
fn bad_identities(random: &mut Random) -> Vec<Request> {
    let mut requests = Vec::new();
    for (turn, sid) in bad_sids(random).into_iter().enumerate() {
        let subject = match turn % 3 {
            0 => bare().with_parent(some_parent()),
            1 => bare(),
            _ => bare().with_creator(some_creator()),
        };
        let bad_owner = Request {
            owner: sid.clone(),
            ..subject.clone()
        };
        let bad_group = Request {
            group: sid.clone(),
            ..subject
        };
        if turn % 8 == 0 {
            requests.push(Request {
                group: sid,
                ..bad_owner.clone()
            });
        }
        // Both kinds of the first few, then in turn.
        match turn {
            0..3 => requests.extend([bad_owner, bad_group]),
            _ if turn % 2 == 0 => requests.push(bad_owner),
            _ => requests.push(bad_group),
        }
    }
    requests.extend(placeholders_in_every_row());
    requests
}

/// Every row, whether it uses owner and group or not.
fn good_in_every_row() -> [Request; 5] {
    let parent = bare().with_parent(some_parent());
    [
        parent.clone(),
        parent.clone().with_creator(some_creator()).with_rule(1),
        parent.with_creator(some_creator()),
        bare(),
        bare().with_creator(some_creator()),
    ]
}

fn placeholders_in_every_row() -> Vec<Request> {
    let mut requests = Vec::new();
    for which in [0, 1] {
        for request in good_in_every_row() {
            let bad_owner = Request {
                owner: creator_sid(which),
                ..request.clone()
            };
            let bad_group = Request {
                group: creator_sid(which),
                ..request
            };
            let both = Request {
                group: creator_sid(1 - which),
                ..bad_owner.clone()
            };
            requests.extend([bad_owner, bad_group, both]);
        }
    }
    requests
}

/// Every length up to 82 bytes and some longer, those about the limits more
/// than once; in rows that use the types and in rows that don't.
fn type_lengths(random: &mut Random) -> Vec<Request> {
    let longer = [95, 96, 97, 112, 128, 144, 199, 200];
    let about_the_limits = [64, 65, 80, 80, 80, 96, 128].into_iter();
    (0..=82)
        .chain(longer)
        .chain(about_the_limits)
        .map(|length| {
            let subject = match length % 3 {
                0 => bare(),
                1 => bare().with_parent(some_parent()),
                _ => bare().with_default(some_default()),
            };
            Request {
                types: random.bytes(length),
                ..subject.with_rule(BOTH_RULES[length / 3 % 2])
            }
        })
        .collect()
}
