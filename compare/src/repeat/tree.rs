//! One change of a tree's root, or its undo. The second program's tree is the
//! one that its scripts play on: it keeps steps and lists, as a room does.

use std::hint::black_box;

use super::{Repeated, Side, lists};
use crate::capi::lending::Lending;
use crate::capi::{self, WhenEmpty};
use second::cases::tree::make::{CONTAINER, below, root, set_list as list_set, set_mark};
use second::room::{Found, lay_out, read};
use second::script::empty_tree;
use second::tree::{Call, Change, Limits, play_on};

/// The step limit.
const STEPS: usize = 16;
/// Of the root's own list.
const ENTRIES: usize = 8;
/// Children of each container, as far as there are objects.
const CHILDREN: usize = 4;

const FULL_OBJECTS: usize = 64;
const FULL_STEPS: usize = 64;
const FULL_ENTRIES: usize = 16;

/// A tree on which a change and its undo follow each other.
pub struct Changing {
    side: Side,
    room: Vec<u8>,
    found: Found,
    change: Call,
    measures_undo: bool,
    is_changed: bool,
    answer: [u32; 8],
}

impl Changing {
    fn new(side: Side, found: Found, change: Change, measures_undo: bool) -> Changing {
        Changing {
            side,
            room: lay_out(&found),
            found,
            change: Call::Change(change),
            measures_undo,
            is_changed: false,
            answer: [0; 8],
        }
    }

    fn next(&mut self) {
        let call = match self.is_changed {
            true => &Call::Undo,
            false => &self.change,
        };
        let call = black_box(call);
        let answer = &mut self.answer;
        match self.side {
            Side::Library => {
                let lending = Lending::apart(WhenEmpty::Null);
                capi::tree::play(call, &mut self.room, &mut [], answer, &lending);
            }
            Side::Second => {
                let played = play_on(Some(&mut self.found), call);
                *answer = played.eight().expect("only a length has no answer");
            }
        }
        self.is_changed = !self.is_changed;
        black_box(self);
    }
}

impl Repeated for Changing {
    fn bring_back(&mut self) {
        if self.is_changed != self.measures_undo {
            self.next();
        }
    }

    fn call(&mut self) {
        self.next();
    }

    fn outcome(&self) -> ([u32; 8], String) {
        let tree = match self.side {
            Side::Library => &read(&self.room).expect("the room holds a tree"),
            Side::Second => &self.found,
        };
        (self.answer, format!("{tree:?}"))
    }
}

/// The root is given another list, which changes every list below.
pub fn set_list(side: Side, objects: usize) -> Changing {
    let (found, change) = tree_and_change(objects);
    Changing::new(side, found, change, false)
}

pub fn undo(side: Side, objects: usize) -> Changing {
    let (found, change) = tree_and_change(objects);
    Changing::new(side, found, change, true)
}

/// Both limits are reached, by 63 containers below the root, whose sixteen
/// entries become 32 in each.
pub fn mark_on_the_full_tree(side: Side) -> Changing {
    let list = lists::of_creators(FULL_ENTRIES);
    let tree = grown(FULL_OBJECTS, FULL_STEPS, list, FULL_OBJECTS);
    let (found, change) = with_steps(tree, |turn| set_mark(0, turn.is_multiple_of(2)));
    Changing::new(side, found, change, false)
}

fn tree_and_change(objects: usize) -> (Found, Change) {
    let list_of = |turn| lists::mixed(ENTRIES, 100 * (1 + turn % 2));
    let tree = grown(objects, STEPS, list_of(0), CHILDREN);
    with_steps(tree, |turn| list_set(0, list_of(turn)))
}

/// With changes by their turn until the step limit is reached, of which the
/// last is given back instead of made: it takes the last place for a step.
fn with_steps(mut tree: Found, change_of: impl Fn(u32) -> Change) -> (Found, Change) {
    let steps = tree.limits.steps;
    let last = change_of(steps as u32);
    for turn in 1..=steps as u32 {
        make(&mut tree, change_of(turn));
    }
    play_on(Some(&mut tree), &Call::Undo);
    assert_eq!(tree.steps.len(), steps - 1);
    (tree, last)
}

/// Containers, of which the root alone has a list of its own.
fn grown(objects: usize, steps: usize, list: Vec<u8>, children: usize) -> Found {
    let mut tree = Found {
        limits: Limits { objects, steps },
        ..empty_tree()
    };
    make(&mut tree, Change::Add(root(CONTAINER).with_list(list)));
    for number in 1..objects {
        let parent = (number - 1) / children;
        make(&mut tree, Change::Add(below(parent as u32, CONTAINER)));
    }
    tree
}

fn make(tree: &mut Found, change: Change) {
    let outcome = play_on(Some(tree), &Call::Change(change));
    assert!(!outcome.is_refused(), "{outcome:?}");
}
