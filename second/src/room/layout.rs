//! Laying a tree out in a room.

use super::found::{Found, Step};
use super::{NO_PARENT, STEP_OF_ADD, STEP_OF_OTHER, length};
use crate::identity;
use crate::tree::{LONGEST_LIST, Object};

/// Zeros wherever there is nothing to say.
pub fn lay_out(found: &Found) -> Vec<u8> {
    lay_out_over(found, vec![0; found.limits.room()])
}

/// Over bytes that stay in the places of objects and steps that don't stand;
/// they have at least the formula's length.
pub fn lay_out_over(found: &Found, mut room: Vec<u8>) -> Vec<u8> {
    let (head, rest) = room.split_at_mut(length::HEAD);
    head.copy_from_slice(&head_bytes(found));
    let (places, behind) = rest.split_at_mut(length::OBJECT * found.limits.objects);
    let objects = found.objects.iter().zip(&found.lists);
    for (place, (object, list)) in places.chunks_mut(length::OBJECT).zip(objects) {
        place.copy_from_slice(&[own_data(object), slot(list.as_deref())].concat());
    }
    let mut standing = found.objects.len();
    for (place, step) in behind.chunks_mut(length::STEP).zip(&found.steps) {
        let (kind, number, own_data) = match step {
            Step::Add => {
                standing -= 1;
                (STEP_OF_ADD, standing, vec![0; length::OWN_DATA])
            }
            Step::Other { object, before } => (STEP_OF_OTHER, *object, own_data(before)),
        };
        place.copy_from_slice(&[vec![kind, number as u8], own_data].concat());
    }
    room
}

fn head_bytes(found: &Found) -> Vec<u8> {
    let settings = &found.settings;
    let counts = [
        found.limits.objects,
        found.limits.steps,
        found.objects.len(),
        found.steps.len(),
        settings.rule as usize,
    ];
    let mut bytes: Vec<u8> = counts.map(|count| count as u8).to_vec();
    bytes.extend(settings.mapping.into_iter().flat_map(u32::to_le_bytes));
    bytes.extend(slot(settings.default_list.as_deref()));
    bytes
}

fn padded(bytes: &[u8], length: usize) -> Vec<u8> {
    let mut padded = bytes.to_vec();
    padded.resize(length, 0);
    padded
}

fn slot(list: Option<&[u8]>) -> Vec<u8> {
    let Some(list) = list else {
        return vec![0; length::SLOT];
    };
    let mut bytes = vec![1];
    bytes.extend((list.len() as u16).to_le_bytes());
    bytes.extend(padded(list, LONGEST_LIST));
    bytes
}

fn identity_bytes(sid: &[u8]) -> Vec<u8> {
    let mut bytes = vec![sid.len() as u8];
    bytes.extend(padded(sid, identity::LONGEST));
    bytes
}

pub fn own_data(object: &Object) -> Vec<u8> {
    let parent = object.parent.map_or(NO_PARENT, |parent| parent as u8);
    let mut bytes = vec![
        parent,
        object.is_container.into(),
        object.is_protected.into(),
    ];
    bytes.extend(object.object_type);
    bytes.extend(identity_bytes(&object.owner));
    bytes.extend(identity_bytes(&object.group));
    bytes.extend(slot(object.own_list.as_deref()));
    bytes
}
