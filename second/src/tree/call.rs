//! What the tree's calls are asked with, good or not, and the tests that a
//! change must pass before lists are computed.

use super::object::Object;
use super::{LONGEST_LIST, NO_PARENT, Refused};
use crate::identity;
use crate::list::{Guid, List};

/// The bits of an add's traits; others aren't looked at.
pub mod traits {
    pub const CONTAINER: u32 = 1;
    pub const PROTECTED: u32 = 2;
    pub const OWN_LIST: u32 = 4;
    /// All that have a meaning.
    pub const ALL: u32 = 7;
}

/// Numbers that say yes or no say yes where they are not 0. A list that is
/// said to be absent is not looked at.
#[derive(Clone, Debug, PartialEq, Eq, Hash)]
pub struct Start {
    pub objects: u32,
    pub steps: u32,
    pub rule: u32,
    /// Read, write, execute, all.
    pub mapping: [u32; 4],
    pub has_default: u32,
    pub default_list: Vec<u8>,
}

impl Start {
    pub fn default_list(&self) -> Option<&[u8]> {
        (self.has_default != 0).then_some(&self.default_list)
    }

    pub fn with_rule(self, rule: u32) -> Start {
        Start { rule, ..self }
    }

    pub fn with_default(self, default_list: Vec<u8>) -> Start {
        Start {
            has_default: 1,
            default_list,
            ..self
        }
    }
}

#[derive(Clone, Debug, PartialEq, Eq, Hash)]
pub struct Add {
    pub parent: u32,
    pub traits: u32,
    pub object_type: Guid,
    pub owner: Vec<u8>,
    pub group: Vec<u8>,
    pub list: Vec<u8>,
}

impl Add {
    pub fn has(&self, which: u32) -> bool {
        self.traits & which != 0
    }

    pub fn with_list(self, list: Vec<u8>) -> Add {
        Add {
            traits: self.traits | traits::OWN_LIST,
            list,
            ..self
        }
    }

    pub fn with_owner(self, owner: Vec<u8>) -> Add {
        Add { owner, ..self }
    }

    pub fn with_group(self, group: Vec<u8>) -> Add {
        Add { group, ..self }
    }

    /// As document 01 wants it: the first names no parent, a later one a
    /// container that stands.
    fn check_parent(&self, standing: &[Object]) -> Result<(), Refused> {
        match (standing.is_empty(), self.parent) {
            (true, NO_PARENT) => Ok(()),
            (true, _) => Err(Refused::FirstWithParent),
            (false, NO_PARENT) => Err(Refused::LaterWithoutParent),
            (false, parent) => match standing.get(parent as usize) {
                None => Err(Refused::ParentMissing),
                Some(parent) if !parent.is_container => Err(Refused::ParentNoContainer),
                Some(_) => Ok(()),
            },
        }
    }
}

#[derive(Clone, Debug, PartialEq, Eq, Hash)]
pub enum Change {
    Add(Add),
    SetList {
        object: u32,
        has_list: u32,
        list: Vec<u8>,
    },
    SetMark {
        object: u32,
        mark: u32,
    },
    SetOwner {
        object: u32,
        owner: Vec<u8>,
        group: Vec<u8>,
    },
}

impl Change {
    /// The list that this change gives its object, if it gives one.
    pub fn given_list(&self) -> Option<&[u8]> {
        match self {
            Change::Add(add) => add.has(traits::OWN_LIST).then_some(&add.list),
            Change::SetList { has_list, list, .. } => (*has_list != 0).then_some(list),
            Change::SetMark { .. } | Change::SetOwner { .. } => None,
        }
    }

    fn owner_and_group(&self) -> Option<(&[u8], &[u8])> {
        match self {
            Change::Add(Add { owner, group, .. }) | Change::SetOwner { owner, group, .. } => {
                Some((owner, group))
            }
            Change::SetList { .. } | Change::SetMark { .. } => None,
        }
    }

    /// The number of the object that this change concerns, where so many stand
    /// before it.
    pub fn object(&self, standing: usize) -> usize {
        match self {
            Change::Add(_) => standing,
            Change::SetList { object, .. }
            | Change::SetMark { object, .. }
            | Change::SetOwner { object, .. } => *object as usize,
        }
    }

    /// 9, 10, 1 to 5, 6, and 8 for a list given.
    pub fn check(&self, standing: &[Object], most: usize) -> Result<(), Refused> {
        if let Change::Add(add) = self {
            add.check_parent(standing)?;
            if standing.len() >= most {
                return Err(Refused::ObjectLimit);
            }
        } else if self.object(standing.len()) >= standing.len() {
            return Err(Refused::NoSuchObject);
        }
        if let Some(list) = self.given_list() {
            List::parse(list).map_err(Refused::Given)?;
        }
        if let Some((owner, group)) = self.owner_and_group() {
            ordinary(owner, Refused::Owner)?;
            ordinary(group, Refused::Group)?;
        }
        match self.given_list() {
            Some(list) if list.len() > LONGEST_LIST => Err(Refused::GivenTooLong),
            _ => Ok(()),
        }
    }
}

fn ordinary(bytes: &[u8], refused: Refused) -> Result<(), Refused> {
    match identity::classify(bytes) {
        0 => Ok(()),
        _ => Err(refused),
    }
}

/// What is read back of an object.
#[derive(Clone, Copy, Debug, PartialEq, Eq, Hash)]
pub enum Part {
    /// The computed list.
    List,
    Own,
    /// Own data but for the list.
    Data,
}

impl Part {
    pub const ALL: [Part; 3] = [Part::List, Part::Own, Part::Data];
}

#[derive(Clone, Debug, PartialEq, Eq, Hash)]
pub enum Call {
    Start {
        room_length: u32,
        start: Start,
    },
    Change(Change),
    Undo,
    Read {
        part: Part,
        object: u32,
        out_length: u16,
    },
    Counts,
    Room {
        objects: u32,
        steps: u32,
    },
}

impl Call {
    pub fn name(&self) -> &'static str {
        match self {
            Call::Start { .. } => "start",
            Call::Change(Change::Add(_)) => "add",
            Call::Change(Change::SetList { .. }) => "set list",
            Call::Change(Change::SetMark { .. }) => "set mark",
            Call::Change(Change::SetOwner { .. }) => "set owner",
            Call::Undo => "undo",
            Call::Read { part, .. } => match part {
                Part::List => "list",
                Part::Own => "own",
                Part::Data => "data",
            },
            Call::Counts => "counts",
            Call::Room { .. } => "room",
        }
    }
}
