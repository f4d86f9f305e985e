//! Where things lie in a room, by docs/ROOM.md.

use second::room::{Found, Step, length};
use second::tree::LONGEST_LIST;

/// Own data begins with parent, kind, mark and type.
pub const OWNER: usize = 19;
pub const GROUP: usize = OWNER + length::IDENTITY;
pub const OWN_LIST: usize = GROUP + length::IDENTITY;
pub const DEFAULT_LIST: usize = 21;

pub fn object(number: usize) -> usize {
    length::HEAD + length::OBJECT * number
}

pub fn computed_list(number: usize) -> usize {
    object(number) + length::OWN_DATA
}

/// Counted from the latest.
pub fn step(object_limit: usize, number: usize) -> usize {
    object(object_limit) + length::STEP * number
}

/// Own data of objects and of steps that aren't adds.
pub fn own_data(found: &Found) -> Vec<usize> {
    let of_objects = (0..found.objects.len()).map(object);
    let of_steps = found.steps.iter().enumerate().filter_map(|(number, kept)| {
        let at = step(found.limits.objects, number) + 2;
        matches!(kept, Step::Other { .. }).then_some(at)
    });
    of_objects.chain(of_steps).collect()
}

/// Slots that are looked at.
pub fn slots(found: &Found) -> Vec<usize> {
    let mut slots = vec![DEFAULT_LIST];
    slots.extend(own_data(found).into_iter().map(|at| at + OWN_LIST));
    slots.extend((0..found.objects.len()).map(computed_list));
    slots
}

/// Identities that are looked at.
pub fn identities(found: &Found) -> Vec<usize> {
    let places = own_data(found).into_iter();
    places.flat_map(|at| [at + OWNER, at + GROUP]).collect()
}

/// The list's length, by a slot's head that may be damaged; 0 where it's
/// absent.
pub fn length_in_slot(room: &[u8], slot: usize) -> usize {
    let length = u16::from_le_bytes([room[slot + 1], room[slot + 2]]);
    match room[slot] {
        0 => 0,
        _ => LONGEST_LIST.min(length.into()),
    }
}
