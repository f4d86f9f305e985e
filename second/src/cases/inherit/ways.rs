//! The ways in which one list's entries can reach the result.

use crate::cases::build::{EntryPlan, creator_sid, good_list, nt_sid};
use crate::computing::{Request, setting};

pub const DOCUMENT_MAPPING: [u32; 4] = [0x0012_0089, 0x0012_0116, 0x0012_00A0, 0x001F_01FF];

/// No lists and no settings. An owner put for a placeholder makes an entry
/// longer, a group makes it shorter.
pub fn bare() -> Request {
    Request {
        rule: 2,
        settings: 0,
        mapping: DOCUMENT_MAPPING,
        parent: Vec::new(),
        creator: Vec::new(),
        default_list: Vec::new(),
        types: Vec::new(),
        owner: nt_sid(&[21, 7]),
        group: nt_sid(&[]),
    }
}

#[derive(Clone, Copy)]
pub enum Way {
    ParentAlone,
    ParentByDefaultDescriptor,
    ParentByRule1,
    ParentByRule2,
    OwnByRule1,
    OwnByRule2,
    OwnAlone,
    DefaultList,
}

impl Way {
    pub const ALL: [Way; 8] = [
        Way::ParentAlone,
        Way::ParentByDefaultDescriptor,
        Way::ParentByRule1,
        Way::ParentByRule2,
        Way::OwnByRule1,
        Way::OwnByRule2,
        Way::OwnAlone,
        Way::DefaultList,
    ];
    pub const OF_PARENT: [Way; 4] = [
        Way::ParentAlone,
        Way::ParentByDefaultDescriptor,
        Way::ParentByRule1,
        Way::ParentByRule2,
    ];
    pub const OF_CREATOR: [Way; 3] = [Way::OwnByRule1, Way::OwnByRule2, Way::OwnAlone];

    /// Where either rule does, `turn` picks it.
    pub fn request(self, list: Vec<u8>, turn: usize) -> Request {
        let rule = match self {
            Way::ParentByRule1 | Way::OwnByRule1 => 1,
            Way::ParentByRule2 | Way::OwnByRule2 => 2,
            _ => 1 + turn as u32 % 2,
        };
        let bare = bare().with_rule(rule);
        match self {
            Way::ParentAlone => bare.with_parent(list),
            Way::ParentByDefaultDescriptor => bare
                .with_parent(list)
                .with_creator(some_creator())
                .with(setting::DEFAULT_DESCRIPTOR),
            Way::ParentByRule1 | Way::ParentByRule2 => bare
                .with_parent(list)
                .with_creator(some_creator())
                .with(setting::AUTO_INHERIT),
            Way::OwnByRule1 | Way::OwnByRule2 => bare
                .with_parent(some_parent())
                .with_creator(list)
                .with(setting::AUTO_INHERIT),
            Way::OwnAlone => bare.with_creator(list),
            Way::DefaultList => bare.with_default(list),
        }
    }
}

/// One entry that reaches every object, and its placeholder.
pub fn some_parent() -> Vec<u8> {
    good_list(&[EntryPlan::plain(1, 0x03, creator_sid(1))])
}

/// An own entry and an inherited one.
pub fn some_creator() -> Vec<u8> {
    good_list(&[
        EntryPlan::plain(0, 0x03, nt_sid(&[11])),
        EntryPlan::plain(1, 0x12, creator_sid(0)),
    ])
}

/// An inherited entry and a plain one.
pub fn some_default() -> Vec<u8> {
    good_list(&[
        EntryPlan::plain(0, 0x1A, creator_sid(0)),
        EntryPlan::plain(0, 0x00, nt_sid(&[7])),
    ])
}
