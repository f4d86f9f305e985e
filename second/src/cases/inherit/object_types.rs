//! Object types against the GUIDs of object entries.

use super::ways::Way;
use super::{KINDS, all_fitting};
use crate::cases::build::{EntryPlan, counting_guid, creator_sid, good_list, nt_sid};
use crate::computing::{MOST_TYPES, Request, setting};
use crate::list::Guid;
use crate::records::Case;

/// As entries have them unless others are given.
fn object_type() -> Guid {
    counting_guid(0x40)
}

fn inherited_object_type() -> Guid {
    counting_guid(0x50)
}

pub fn cases() -> Vec<Case> {
    let mut requests = Vec::new();
    for (turn, types) in rows_of_types().into_iter().enumerate() {
        for kind in KINDS {
            let ways = [Way::ParentAlone, Way::OF_PARENT[1 + turn % 3]];
            for way in ways {
                let request = way.request(every_object_shape(), turn).with(kind);
                requests.push(with_types(request, &types));
            }
        }
    }
    requests.extend(near_matches());
    requests.extend(across_two_types());
    requests.extend(zero_guids());
    all_fitting(requests)
}

fn with_types(request: Request, types: &[Guid]) -> Request {
    Request {
        types: types.concat(),
        ..request
    }
}

/// Types 05 and 06 by all words, told apart by their masks.
fn every_object_shape() -> Vec<u8> {
    let plans: Vec<EntryPlan> = (0..8)
        .map(|shape| EntryPlan {
            mask: shape,
            ..EntryPlan::object(5 + shape as u8 % 2, 0x03, shape / 2, nt_sid(&[]))
        })
        .collect();
    good_list(&plans)
}

/// None to four types: of no entry, with the ObjectType or the
/// InheritedObjectType at each place, with both, and all the same.
fn rows_of_types() -> Vec<Vec<Guid>> {
    let mut rows = Vec::new();
    for count in 0..=MOST_TYPES {
        let others: Vec<Guid> = (0..count)
            .map(|place| counting_guid(0x60 + place as u8))
            .collect();
        for place in 0..count {
            for guid in [object_type(), inherited_object_type()] {
                let mut row = others.clone();
                row[place] = guid;
                rows.push(row);
            }
        }
        rows.push(others);
    }
    rows.push(vec![object_type(), inherited_object_type()]);
    rows.push(vec![inherited_object_type(), object_type()]);
    rows.push(vec![object_type(); MOST_TYPES]);
    rows
}

fn single(guids: [Guid; 2], word: u32) -> Vec<u8> {
    good_list(&[EntryPlan {
        guids,
        ..EntryPlan::object(5, 0x03, word, creator_sid(0))
    }])
}

/// One bit differs, at each byte; or the bytes stand in another order.
fn near_matches() -> Vec<Request> {
    let mut others = Vec::new();
    for place in 0..16 {
        for bit in [0x01, 0x80] {
            let mut changed = object_type();
            changed[place] ^= bit;
            others.push(changed);
        }
    }
    let mut reversed = object_type();
    reversed.reverse();
    let mut as_text = object_type();
    as_text[..4].reverse();
    as_text[4..6].reverse();
    as_text[6..8].reverse();
    others.extend([reversed, as_text]);
    let list = single([object_type(), object_type()], 1);
    let requests = others.into_iter().enumerate();
    requests
        .map(|(turn, other)| {
            let request = Way::ParentAlone.request(list.clone(), turn);
            with_types(request.with(KINDS[turn % 2]), &[other])
        })
        .collect()
}

/// The ObjectType's bytes lie across two of the types: no match.
fn across_two_types() -> Vec<Request> {
    let across = |start: usize| {
        let mut types = vec![0xEE; 32];
        types[start..start + 16].copy_from_slice(&object_type());
        Request {
            types,
            ..Way::ParentAlone.request(single([object_type(); 2], 3), start)
        }
    };
    (0..=16).map(across).collect()
}

/// A GUID that an entry doesn't have isn't one of zeros.
fn zero_guids() -> Vec<Request> {
    let mut requests = Vec::new();
    for word in 0..4 {
        for kind in [0, setting::CONTAINER] {
            for guids in [[[0; 16]; 2], [object_type(), [0; 16]]] {
                let request = Way::ParentAlone.request(single(guids, word), word as usize);
                requests.push(with_types(request.with(kind), &[[0; 16]]));
            }
        }
    }
    requests
}
