//! A tree of objects with undo. Kept are the start and the changes accepted
//! and not undone since; every question plays them again from an empty tree.

mod call;
mod calls;
mod object;
mod player;
mod refused;

pub use call::{Add, Call, Change, Part, Start, traits};
pub use calls::{Calls, list_answer};
pub use object::{Object, Settings, all_lists, apply, list_below};
pub use player::{OUT_BEFORE, Outcome, Player, play_on};
pub use refused::Refused;

use crate::answer::Answer;
use crate::list::List;

/// Of lists given to a tree and of lists computed in it.
pub const LONGEST_LIST: usize = 1_024;
pub const MOST_OBJECTS: u32 = 64;
pub const MOST_STEPS: u32 = 64;
/// As the parent's number in a call.
pub const NO_PARENT: u32 = u32::MAX;

#[derive(Clone, Copy, Debug, PartialEq, Eq)]
pub struct Limits {
    pub objects: usize,
    pub steps: usize,
}

impl Limits {
    /// `None` where one is out of range.
    pub fn of(objects: u32, steps: u32) -> Option<Limits> {
        let in_range = (1..=MOST_OBJECTS).contains(&objects) && steps <= MOST_STEPS;
        in_range.then_some(Limits {
            objects: objects as usize,
            steps: steps as usize,
        })
    }

    /// The formula of docs/ROOM.md.
    pub fn room(self) -> usize {
        1_048 + 2_211 * self.objects + 1_186 * self.steps
    }
}

/// What the call for the room's length returns.
pub fn room(objects: u32, steps: u32) -> usize {
    Limits::of(objects, steps).map_or(0, Limits::room)
}

#[derive(Clone, Debug)]
pub struct Tree {
    limits: Limits,
    settings: Settings,
    log: Vec<Change>,
    /// How many of the log's last changes can still be undone.
    kept: usize,
}

impl Tree {
    pub fn start(room_length: usize, start: &Start) -> Result<Tree, Refused> {
        let limits = Limits::of(start.objects, start.steps).ok_or(Refused::Limits)?;
        if !(1..=2).contains(&start.rule) {
            return Err(Refused::Rule);
        }
        if room_length < limits.room() {
            return Err(Refused::RoomTooShort);
        }
        let default_list = start.default_list().map(<[u8]>::to_vec);
        if let Some(list) = &default_list {
            List::parse(list).map_err(Refused::Default)?;
            if list.len() > LONGEST_LIST {
                return Err(Refused::DefaultTooLong);
            }
        }
        Ok(Tree {
            limits,
            settings: Settings {
                rule: start.rule,
                mapping: start.mapping,
                default_list,
            },
            log: Vec::new(),
            kept: 0,
        })
    }

    pub fn limits(&self) -> Limits {
        self.limits
    }

    pub fn settings(&self) -> &Settings {
        &self.settings
    }

    /// The changes that can still be undone, the latest first, each with the
    /// objects that stood before it.
    pub fn kept_changes(&self) -> impl Iterator<Item = (&Change, Vec<Object>)> {
        let latest_first = (0..self.log.len()).rev().take(self.kept);
        latest_first.map(|at| (&self.log[at], object::played(&self.log[..at])))
    }
}

impl Calls for Tree {
    fn objects(&self) -> Vec<Object> {
        object::played(&self.log)
    }

    fn list(&self, number: usize) -> Option<Vec<u8>> {
        object::computed_list(&self.settings, &self.objects(), number)
            .expect("a change that makes a list too long is refused")
    }

    fn kept_steps(&self) -> usize {
        self.kept
    }

    fn change(&mut self, change: &Change) -> Result<Answer, Refused> {
        let standing = self.objects();
        change.check(&standing, self.limits.objects)?;
        let log = [&self.log[..], std::slice::from_ref(change)].concat();
        let lists = all_lists(&self.settings, &object::played(&log))?;
        self.log = log;
        self.kept = (self.kept + 1).min(self.limits.steps);
        let number = change.object(standing.len());
        Ok(list_answer(lists[number].as_deref()))
    }

    fn undo(&mut self) -> Result<Answer, Refused> {
        if self.kept == 0 {
            return Err(Refused::NothingKept);
        }
        self.log.pop();
        self.kept -= 1;
        Ok(Answer::default())
    }
}

#[cfg(test)]
mod tests;
