//! Plays calls in turn, all of them on one room.

use super::{Call, Calls, Refused, Tree};
use crate::answer::Answer;

/// What `out` holds before a call.
pub const OUT_BEFORE: u8 = 0xAA;

/// A start that was done puts its tree in the place of the one that stood;
/// before the first one the room is zeros.
#[derive(Clone, Debug, Default)]
pub struct Player {
    tree: Option<Tree>,
}

#[derive(Clone, Debug, PartialEq, Eq)]
pub enum Outcome {
    /// The room that is needed.
    Length(usize),
    Answer(Result<Answer, Refused>),
    /// With the whole of `out` afterwards.
    ReadBack(Result<Answer, Refused>, Vec<u8>),
}

impl Outcome {
    /// `None` where the call has no answer but a length.
    pub fn result(&self) -> Option<&Result<Answer, Refused>> {
        match self {
            Outcome::Length(_) => None,
            Outcome::Answer(result) | Outcome::ReadBack(result, _) => Some(result),
        }
    }

    pub fn eight(&self) -> Option<[u32; 8]> {
        self.result().map(eight)
    }

    pub fn is_refused(&self) -> bool {
        matches!(self.result(), Some(Err(_)))
    }
}

fn eight(result: &Result<Answer, Refused>) -> [u32; 8] {
    match result {
        Ok(answer) => answer.eight(),
        Err(refused) => refused.answer().eight(),
    }
}

impl Player {
    pub fn tree(&self) -> Option<&Tree> {
        self.tree.as_ref()
    }

    pub fn play(&mut self, call: &Call) -> Outcome {
        match call {
            Call::Room { objects, steps } => Outcome::Length(super::room(*objects, *steps)),
            Call::Start { room_length, start } => {
                let started = Tree::start(*room_length as usize, start);
                Outcome::Answer(started.map(|tree| {
                    self.tree = Some(tree);
                    Answer::default()
                }))
            }
            _ => play_on(self.tree.as_mut(), call),
        }
    }
}

/// Plays any call but a start or one for a length; without a tree it's 13.
pub fn play_on(tree: Option<&mut impl Calls>, call: &Call) -> Outcome {
    let tree = tree.ok_or(Refused::NotATree);
    match call {
        Call::Change(change) => Outcome::Answer(tree.and_then(|tree| tree.change(change))),
        Call::Undo => Outcome::Answer(tree.and_then(|tree| tree.undo())),
        Call::Counts => Outcome::Answer(tree.map(|tree| tree.counts())),
        Call::Read {
            part,
            object,
            out_length,
        } => {
            let mut out = vec![OUT_BEFORE; usize::from(*out_length)];
            let result = tree.and_then(|tree| tree.read_back(*part, *object, &mut out));
            Outcome::ReadBack(result, out)
        }
        Call::Start { .. } | Call::Room { .. } => unreachable!("these ask for no tree"),
    }
}
