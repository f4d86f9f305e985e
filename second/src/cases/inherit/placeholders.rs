//! Placeholders and what only looks like one.

use super::ways::Way;
use super::{KINDS, all_fitting};
use crate::cases::build::{EntryPlan, SHAPES, counting_guid, creator_sid, good_list, nt_sid};
use crate::cases::list::identities::near_placeholders;
use crate::computing::{Request, setting};
use crate::identity;
use crate::records::Case;

pub fn cases() -> Vec<Case> {
    let mut requests = in_every_shape();
    requests.extend(near_ones());
    requests.extend(inside_guids());
    requests.extend(both_in_one_list());
    all_fitting(requests)
}

fn with_own_type(request: Request) -> Request {
    Request {
        types: counting_guid(0x40).to_vec(),
        ..request
    }
}

fn in_every_shape() -> Vec<Request> {
    let mut requests = Vec::new();
    for (place, (entry_type, word)) in SHAPES.into_iter().enumerate() {
        for which in [0, 1] {
            for (turn, way) in Way::ALL.into_iter().enumerate() {
                // Inheritable in the parent, an own entry in the creator.
                let plan = EntryPlan::object(entry_type, 0x03, word, creator_sid(which));
                let request = way.request(good_list(&[plan]), turn + place);
                let kind = KINDS[(place + turn) % 2];
                requests.push(with_own_type(request).with(kind));
            }
        }
    }
    requests
}

/// Those that are good identities: S-1-3, S-1-3-2, S-1-3-0-0 and the like,
/// alone and all together.
fn near_ones() -> Vec<Request> {
    let ordinary = |sid: &Vec<u8>| identity::classify(sid) == 0;
    let near = near_placeholders().into_iter().filter(ordinary);
    let plans: Vec<EntryPlan> = near.map(|sid| EntryPlan::plain(0, 0x03, sid)).collect();
    let in_turn = |(turn, plan): (usize, &EntryPlan)| {
        let way = [Way::ParentAlone, Way::OwnByRule2, Way::DefaultList][turn % 3];
        way.request(good_list(std::slice::from_ref(plan)), turn / 3)
    };
    let mut requests: Vec<Request> = plans.iter().enumerate().map(in_turn).collect();
    let together = good_list(&plans);
    requests.extend(Way::ALL.map(|way| way.request(together.clone(), 0)));
    requests
}

/// A placeholder's bytes in the GUIDs, where an entry without them has its SID.
fn inside_guids() -> Vec<Request> {
    let mut requests = Vec::new();
    for which in [0, 1] {
        let mut guid = [0; 16];
        guid[..12].copy_from_slice(&creator_sid(which));
        for word in [1, 2, 3] {
            for way in [Way::ParentAlone, Way::OwnAlone, Way::DefaultList] {
                let plan = EntryPlan {
                    guids: [guid, guid],
                    ..EntryPlan::object(5, 0x03, word, nt_sid(&[18]))
                };
                let request = way.request(good_list(&[plan]), word as usize);
                requests.push(Request {
                    types: guid.to_vec(),
                    ..request.with(setting::CONTAINER)
                });
            }
        }
    }
    requests
}

/// Lengths change at several places at once.
fn both_in_one_list() -> Vec<Request> {
    let plans = [
        EntryPlan::plain(0, 0x03, creator_sid(1)),
        EntryPlan::object(5, 0x03, 1, creator_sid(0)),
        EntryPlan::plain(1, 0x0B, nt_sid(&[18])),
        EntryPlan::object(6, 0x07, 3, creator_sid(1)),
        EntryPlan::plain(0, 0x0A, creator_sid(0)),
    ];
    let mut requests = Vec::new();
    for kind in KINDS {
        for (turn, way) in Way::ALL.into_iter().enumerate() {
            let request = way.request(good_list(&plans), turn).with(kind);
            requests.extend([request.clone(), with_own_type(request)]);
        }
    }
    requests
}
