//! What a computation is asked with, good or not.

use super::inputs::WhichList;

/// The bits of the settings; others aren't looked at.
pub mod setting {
    pub const PARENT: u32 = 1;
    pub const CREATOR: u32 = 2;
    pub const DEFAULT_LIST: u32 = 4;
    pub const CONTAINER: u32 = 8;
    pub const AUTO_INHERIT: u32 = 16;
    pub const DEFAULT_DESCRIPTOR: u32 = 32;
    pub const PROTECTED: u32 = 64;
    /// All that have a meaning.
    pub const ALL: u32 = 127;
}

/// A list's bytes are not looked at where its bit is missing.
#[derive(Clone, Debug, PartialEq, Eq, Hash)]
pub struct Request {
    pub rule: u32,
    pub settings: u32,
    /// Read, write, execute, all.
    pub mapping: [u32; 4],
    pub parent: Vec<u8>,
    pub creator: Vec<u8>,
    pub default_list: Vec<u8>,
    pub types: Vec<u8>,
    pub owner: Vec<u8>,
    pub group: Vec<u8>,
}

impl Request {
    pub fn has(&self, setting: u32) -> bool {
        self.settings & setting != 0
    }

    /// The bytes of a list that is present.
    pub fn list(&self, which: WhichList) -> Option<&[u8]> {
        let (bit, bytes) = match which {
            WhichList::Parent => (setting::PARENT, &self.parent),
            WhichList::Creator => (setting::CREATOR, &self.creator),
            WhichList::Default => (setting::DEFAULT_LIST, &self.default_list),
        };
        self.has(bit).then_some(bytes)
    }

    pub fn with_rule(self, rule: u32) -> Request {
        Request { rule, ..self }
    }

    /// These settings beside those that stand.
    pub fn with(self, settings: u32) -> Request {
        Request {
            settings: self.settings | settings,
            ..self
        }
    }

    pub fn with_parent(self, parent: Vec<u8>) -> Request {
        Request { parent, ..self }.with(setting::PARENT)
    }

    pub fn with_creator(self, creator: Vec<u8>) -> Request {
        Request { creator, ..self }.with(setting::CREATOR)
    }

    pub fn with_default(self, default_list: Vec<u8>) -> Request {
        Request {
            default_list,
            ..self
        }
        .with(setting::DEFAULT_LIST)
    }
}
