//! The computation's call: a new object's list, from its parent's, its
//! creator's and the default one, into a lent room.

mod inputs;
mod request;
mod subroutines;

pub use inputs::{MOST_TYPES, Refused, WhichList};
pub use request::{Request, setting};
pub use subroutines::Branch;

use crate::ace;
use crate::answer::Answer;
use inputs::Inputs;
use subroutines::Computed;

/// What was computed, and by which row of document 01's table.
#[derive(Clone, Copy, Debug, PartialEq, Eq)]
pub struct Done {
    pub branch: Branch,
    pub answer: Answer,
}

/// Fills the room's front with the result, or leaves the room as it was.
pub fn try_compute(request: &Request, room: &mut [u8]) -> Result<Done, Refused> {
    let inputs = Inputs::check(request)?;
    let Computed {
        branch,
        acl,
        control,
    } = subroutines::compute_acl(&inputs);
    let answer = match acl {
        // An absent result needs no room.
        None => Answer::default(),
        Some(aces) => {
            let list = ace::lay_out(&aces).ok_or(Refused::TooLong)?;
            let front = room.get_mut(..list.len()).ok_or(Refused::Room)?;
            front.copy_from_slice(&list);
            Answer {
                control,
                ..Answer::done(list.len(), aces.len())
            }
        }
    };
    Ok(Done { branch, answer })
}

pub fn compute(request: &Request, room: &mut [u8]) -> Answer {
    match try_compute(request, room) {
        Ok(done) => done.answer,
        Err(refused) => refused.answer(),
    }
}

#[cfg(test)]
mod tests;
