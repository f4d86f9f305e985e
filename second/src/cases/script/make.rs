//! Scripts in the making.

use crate::cases::build::{EntryPlan, creator_sid, good_list, nt_sid};
use crate::cases::tree::make::{CONTAINER, LEAF, below, of_creator, root};
use crate::records::Case;
use crate::script::{HEAD, play, record};
use crate::tree::{Add, Call, Change};

/// Begins with a good head.
#[derive(Clone)]
pub struct Script(Vec<u8>);

impl Script {
    pub fn new() -> Script {
        Script(HEAD.to_vec())
    }

    pub fn call(mut self, call: &Call) -> Script {
        self.0.extend(record(call));
        self
    }

    pub fn change(self, change: Change) -> Script {
        self.call(&Call::Change(change))
    }

    pub fn add(self, add: Add) -> Script {
        self.change(Change::Add(add))
    }

    pub fn undo(self, times: usize) -> Script {
        self.raw(&vec![5; times])
    }

    /// Bytes as they are.
    pub fn raw(mut self, bytes: &[u8]) -> Script {
        self.0.extend(bytes);
        self
    }

    pub fn bytes(self) -> Vec<u8> {
        self.0
    }
}

/// Changes and undos of a tree's calls; others have no record.
pub fn of_calls(calls: &[Call]) -> Script {
    let played = calls
        .iter()
        .filter(|call| matches!(call, Call::Change(_) | Call::Undo));
    played.fold(Script::new(), Script::call)
}

/// Document 01's own example.
pub fn document() -> Script {
    Script::new()
        .add(root(CONTAINER).with_list(of_creator(0x03)))
        .add(below(0, CONTAINER))
}

/// A root, a container below it and an object below that. All their lists
/// have different lengths, and change with owner and group.
pub fn family() -> Script {
    let both_placeholders = good_list(&[
        EntryPlan::plain(0, 0x03, creator_sid(0)),
        EntryPlan::plain(1, 0x02, creator_sid(1)),
    ]);
    Script::new()
        .add(root(CONTAINER).with_list(both_placeholders))
        .add(below(0, CONTAINER).with_owner(nt_sid(&[21, 1])))
        .add(below(1, LEAF).with_list(of_creator(0x00)))
}

/// How many stand in it.
pub const FAMILY: u32 = 3;

pub fn text_length(script: &[u8]) -> usize {
    play(script).text.len()
}

pub fn case(script: Vec<u8>, out_length: usize) -> Case {
    let out_length = u16::try_from(out_length).expect("out is short");
    Case::Play { script, out_length }
}

/// With room for the text: exactly enough, or some more.
pub fn fitting(scripts: Vec<Vec<u8>>) -> Vec<Case> {
    let scripts = scripts.into_iter().enumerate();
    scripts
        .map(|(turn, script)| {
            let more = [0, 1, 7, 100, 0][turn % 5];
            let length = text_length(&script) + more;
            case(script, length)
        })
        .collect()
}
