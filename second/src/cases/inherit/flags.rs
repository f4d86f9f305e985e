//! All 32 combinations of flags, in each list.

use super::ways::Way;
use super::{KINDS, all_fitting};
use crate::cases::build::{EntryPlan, counting_guid, creator_sid, good_list, nt_sid};
use crate::computing::Request;
use crate::records::Case;

const FLAGS: std::ops::Range<u8> = 0..32;

pub fn cases() -> Vec<Case> {
    let mut requests = Vec::new();
    for kind in KINDS {
        requests.extend(in_each_list(kind));
        requests.extend(object_entries_of_the_parent(kind));
        requests.extend(all_flags_at_once(kind));
        requests.extend(pairs_in_the_parent(kind));
    }
    all_fitting(requests)
}

fn in_each_list(kind: u32) -> Vec<Request> {
    let mut requests = Vec::new();
    for way in Way::ALL {
        for flags in FLAGS {
            let turn = usize::from(flags) / 2;
            let plan = EntryPlan::plain(flags & 1, flags, nt_sid(&[18]));
            requests.push(way.request(good_list(&[plan]), turn).with(kind));
        }
    }
    requests
}

/// One that names the object's type, one that names another, one that names none.
fn object_entries_of_the_parent(kind: u32) -> Vec<Request> {
    let mut requests = Vec::new();
    for flags in FLAGS {
        for (entry_type, word, object_type) in [(5, 1, 0x40), (6, 3, 0x60), (5, 2, 0x40)] {
            let plan = EntryPlan::object(entry_type, flags, word, creator_sid(0));
            let way = Way::OF_PARENT[usize::from(flags / 3) % Way::OF_PARENT.len()];
            let request = way.request(good_list(&[plan]), usize::from(flags));
            requests.push(Request {
                types: counting_guid(object_type).to_vec(),
                ..request.with(kind)
            });
        }
    }
    requests
}

/// The order of the result's entries is seen by their masks.
fn all_flags_at_once(kind: u32) -> Vec<Request> {
    let plans: Vec<EntryPlan> = FLAGS
        .map(|flags| EntryPlan {
            mask: u32::from(flags),
            ..EntryPlan::plain(flags >> 4, flags, nt_sid(&[]))
        })
        .collect();
    let list = good_list(&plans);
    Way::ALL
        .map(|way| way.request(list.clone(), 0).with(kind))
        .to_vec()
}

/// An entry beside one that is inheritable: the branch stays the same.
fn pairs_in_the_parent(kind: u32) -> Vec<Request> {
    let mut requests = Vec::new();
    for flags in FLAGS {
        let other = EntryPlan::plain(1, flags, nt_sid(&[1]));
        let inheritable = EntryPlan::plain(0, 0x01 << (flags % 2), nt_sid(&[2, 2]));
        let plans = if flags % 3 == 0 {
            [inheritable, other]
        } else {
            [other, inheritable]
        };
        let way = Way::OF_PARENT[usize::from(flags) % Way::OF_PARENT.len()];
        requests.push(
            way.request(good_list(&plans), usize::from(flags / 4))
                .with(kind),
        );
    }
    requests
}
