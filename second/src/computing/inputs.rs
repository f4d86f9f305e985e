//! The tests before the computation, in document 01's order, and what they
//! make of a request.

use super::request::{Request, setting};
use crate::ace::Ace;
use crate::answer::Answer;
use crate::identity::{Identity, Role};
use crate::list::{Guid, List};
use crate::refusal::Refusal;

pub const MOST_TYPES: usize = 4;

#[derive(Clone, Copy, Debug, PartialEq, Eq)]
pub enum WhichList {
    Parent,
    Creator,
    Default,
}

impl WhichList {
    pub const ALL: [WhichList; 3] = [WhichList::Parent, WhichList::Creator, WhichList::Default];

    fn number(self) -> u32 {
        match self {
            WhichList::Parent => 1,
            WhichList::Creator => 2,
            WhichList::Default => 3,
        }
    }

    pub fn name(self) -> &'static str {
        match self {
            WhichList::Parent => "parent",
            WhichList::Creator => "creator",
            WhichList::Default => "default",
        }
    }
}

/// Why a computation is refused, in the order of the tests.
#[derive(Clone, Copy, Debug, PartialEq, Eq)]
pub enum Refused {
    Rule,
    List(WhichList, Refusal),
    Owner,
    Group,
    Types,
    /// Over 65,532 bytes.
    TooLong,
    /// Over the lent length.
    Room,
}

impl Refused {
    pub fn number(self) -> u32 {
        self.answer().number
    }

    pub fn answer(self) -> Answer {
        match self {
            Refused::Rule => Answer::refused_as_a_whole(12),
            Refused::List(which, refusal) => Answer::refused(refusal, which.number()),
            Refused::Owner | Refused::Group => Answer::refused_as_a_whole(6),
            Refused::Types => Answer::refused_as_a_whole(7),
            Refused::TooLong | Refused::Room => Answer::refused_as_a_whole(8),
        }
    }

    pub fn name(self) -> String {
        match self {
            Refused::Rule => "rule".to_string(),
            Refused::List(which, refusal) => format!("{}: {}", which.name(), refusal.fault.name()),
            Refused::Owner => "owner".to_string(),
            Refused::Group => "group".to_string(),
            Refused::Types => "types".to_string(),
            Refused::TooLong => "over 65,532 bytes".to_string(),
            Refused::Room => "over the lent length".to_string(),
        }
    }
}

#[derive(Clone, Copy, Debug, PartialEq, Eq)]
pub enum Rule {
    /// The printed text.
    One,
    /// What the library runs.
    Two,
}

impl Rule {
    /// Whether the last step mends masks as document 02's third ticket says.
    /// Rule 1 stays the printed text.
    pub fn mends(self) -> bool {
        match self {
            Rule::One => false,
            Rule::Two => true,
        }
    }
}

pub struct Mapping {
    pub read: u32,
    pub write: u32,
    pub execute: u32,
    pub all: u32,
}

/// Good inputs, taken apart.
pub struct Inputs {
    pub rule: Rule,
    pub parent: Option<Vec<Ace>>,
    pub creator: Option<Vec<Ace>>,
    pub default_list: Option<Vec<Ace>>,
    pub owner: Identity,
    pub group: Identity,
    pub object_types: Vec<Guid>,
    pub mapping: Mapping,
    pub is_container: bool,
    pub auto_inherit: bool,
    pub default_descriptor: bool,
    pub protected: bool,
}

impl Inputs {
    pub fn check(request: &Request) -> Result<Inputs, Refused> {
        let rule = match request.rule {
            1 => Rule::One,
            2 => Rule::Two,
            _ => return Err(Refused::Rule),
        };
        let parent = list_if_present(request, WhichList::Parent)?;
        let creator = list_if_present(request, WhichList::Creator)?;
        let default_list = list_if_present(request, WhichList::Default)?;
        let owner = ordinary(&request.owner).ok_or(Refused::Owner)?;
        let group = ordinary(&request.group).ok_or(Refused::Group)?;
        let object_types = object_types(&request.types).ok_or(Refused::Types)?;
        let [read, write, execute, all] = request.mapping;
        Ok(Inputs {
            rule,
            parent,
            creator,
            default_list,
            owner,
            group,
            object_types,
            mapping: Mapping {
                read,
                write,
                execute,
                all,
            },
            is_container: request.has(setting::CONTAINER),
            auto_inherit: request.has(setting::AUTO_INHERIT),
            default_descriptor: request.has(setting::DEFAULT_DESCRIPTOR),
            protected: request.has(setting::PROTECTED),
        })
    }
}

fn list_if_present(request: &Request, which: WhichList) -> Result<Option<Vec<Ace>>, Refused> {
    let Some(bytes) = request.list(which) else {
        return Ok(None);
    };
    let list = List::parse(bytes).map_err(|refusal| Refused::List(which, refusal))?;
    Ok(Some(list.entries.iter().map(Ace::from).collect()))
}

/// Exactly one SID, and no placeholder.
fn ordinary(bytes: &[u8]) -> Option<Identity> {
    Identity::parse(bytes).filter(|identity| identity.role() == Role::Ordinary)
}

fn object_types(bytes: &[u8]) -> Option<Vec<Guid>> {
    let (guids, rest) = bytes.as_chunks();
    (rest.is_empty() && guids.len() <= MOST_TYPES).then(|| guids.to_vec())
}
