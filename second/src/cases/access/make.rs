//! Questions that are good as they stand.

use crate::access::Question;
use crate::cases::build::{COUNTING_FROM, EntryPlan, counting_guid, good_list, nt_sid};
use crate::list::Guid;

/// All bits that may be wanted.
pub const MOST_WANTED: u32 = 0x0FFF_FFFF;
/// Two bits of a mask.
pub const READ: u32 = 0x0002_0000;
pub const WRITE: u32 = 0x0000_0002;

/// Who asks, in most questions.
pub fn person() -> Vec<u8> {
    nt_sid(&[18])
}

pub fn stranger() -> Vec<u8> {
    nt_sid(&[19])
}

/// The ObjectType of entries, unless they are given another.
pub fn asked_type() -> Guid {
    counting_guid(COUNTING_FROM[0])
}

/// With this list, by the person alone.
pub fn of_list(list: Vec<u8>, wanted: u32) -> Question {
    Question {
        has_list: 1,
        list,
        object_type: asked_type(),
        held: person(),
        wanted,
    }
}

pub fn of_entries(plans: &[EntryPlan], wanted: u32) -> Question {
    of_list(good_list(plans), wanted)
}

pub fn allow(mask: u32) -> EntryPlan {
    of_type(0, mask)
}

pub fn deny(mask: u32) -> EntryPlan {
    of_type(1, mask)
}

/// For the person, without flags.
pub fn of_type(entry_type: u8, mask: u32) -> EntryPlan {
    EntryPlan {
        mask,
        ..EntryPlan::plain(entry_type, 0, person())
    }
}
