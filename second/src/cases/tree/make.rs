//! Starts and changes that are good as they stand.

use crate::cases::build::{EntryPlan, MOST_NUMBERS, counting_guid, creator_sid, good_list, nt_sid};
use crate::cases::inherit::ways::DOCUMENT_MAPPING;
use crate::list::HEADER_LENGTH;
use crate::tree::{Add, Change, LONGEST_LIST, NO_PARENT, Start, traits};

pub const CONTAINER: u32 = traits::CONTAINER;
pub const PROTECTED: u32 = traits::PROTECTED;
/// That an object is not a container.
pub const LEAF: u32 = 0;

/// Rule 2, document 01's mapping, no default list.
pub fn start(objects: u32, steps: u32) -> Start {
    Start {
        objects,
        steps,
        rule: 2,
        mapping: DOCUMENT_MAPPING,
        has_default: 0,
        default_list: Vec::new(),
    }
}

pub fn system() -> Vec<u8> {
    nt_sid(&[18])
}

/// Owner and group are S-1-5-18, and there is no own list.
pub fn below(parent: u32, traits: u32) -> Add {
    Add {
        parent,
        traits,
        object_type: counting_guid(0x40),
        owner: system(),
        group: system(),
        list: Vec::new(),
    }
}

pub fn root(traits: u32) -> Add {
    below(NO_PARENT, traits)
}

pub fn set_list(object: u32, list: Vec<u8>) -> Change {
    Change::SetList {
        object,
        has_list: 1,
        list,
    }
}

pub fn remove_list(object: u32) -> Change {
    Change::SetList {
        object,
        has_list: 0,
        list: Vec::new(),
    }
}

pub fn set_mark(object: u32, mark: bool) -> Change {
    Change::SetMark {
        object,
        mark: mark.into(),
    }
}

pub fn set_owner(object: u32, owner: Vec<u8>, group: Vec<u8>) -> Change {
    Change::SetOwner {
        object,
        owner,
        group,
    }
}

const GENERIC_READ: u32 = 0x8000_0000;

/// Document 01's parent, whose one entry has flags 03, or other flags.
pub fn of_creator(flags: u8) -> Vec<u8> {
    good_list(&[EntryPlan {
        mask: GENERIC_READ,
        ..EntryPlan::plain(0, flags, creator_sid(0))
    }])
}

/// One entry for S-1-5 and this number.
pub fn one_entry(flags: u8, number: u32) -> Vec<u8> {
    good_list(&[EntryPlan::plain(0, flags, nt_sid(&[number]))])
}

/// Entries with these flags and this many bytes in all, which is a multiple
/// of 4 and not under 16; each has at most 76.
pub fn entries_of(flags: u8, mut bytes: usize) -> Vec<EntryPlan> {
    const LONGEST: usize = 16 + 4 * MOST_NUMBERS;
    const SHORTEST: usize = 16;
    let mut plans = Vec::new();
    while bytes > 0 {
        // What is left is again an entry, or nothing.
        let size = if bytes <= LONGEST {
            bytes
        } else {
            LONGEST.min(bytes - SHORTEST)
        };
        let numbers = vec![7; (size - SHORTEST) / 4];
        plans.push(EntryPlan::plain(1, flags, nt_sid(&numbers)));
        bytes -= size;
    }
    plans
}

/// A good list of this length.
pub fn list_of_length(flags: u8, length: usize) -> Vec<u8> {
    let list = good_list(&entries_of(flags, length - HEADER_LENGTH));
    assert_eq!(list.len(), length);
    list
}

/// Four bytes more than a tree takes.
pub fn too_long() -> Vec<u8> {
    list_of_length(0x03, LONGEST_LIST + 4)
}
