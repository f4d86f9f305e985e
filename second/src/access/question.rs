//! What is asked, as the call takes it.

use crate::list::Guid;

#[derive(Clone, Debug, PartialEq, Eq, Hash)]
pub struct Question {
    /// Yes where it isn't 0; else the list isn't looked at.
    pub has_list: u32,
    pub list: Vec<u8>,
    pub object_type: Guid,
    /// SIDs end to end.
    pub held: Vec<u8>,
    pub wanted: u32,
}

impl Question {
    pub fn holding(self, sids: &[Vec<u8>]) -> Question {
        self.with_held(sids.concat())
    }

    /// Bytes that may be SIDs or not.
    pub fn with_held(self, held: Vec<u8>) -> Question {
        Question { held, ..self }
    }

    /// The list's bytes stay, and mustn't matter.
    pub fn without_list(self) -> Question {
        Question {
            has_list: 0,
            ..self
        }
    }

    pub fn wanting(self, wanted: u32) -> Question {
        Question { wanted, ..self }
    }

    pub fn of_object_type(self, object_type: Guid) -> Question {
        Question {
            object_type,
            ..self
        }
    }

    /// The list where it is looked at.
    pub fn present_list(&self) -> Option<&[u8]> {
        (self.has_list != 0).then_some(&self.list)
    }
}
