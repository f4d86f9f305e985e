//! Records that end the run, for objects that stand and for others.

use super::make::{Script, document, family};
use crate::cases::tree::make::{CONTAINER, LEAF, below, of_creator, root, set_mark};
use crate::script::record;
use crate::tree::{Add, Call, Change};

const ABOVE_ONE: [u8; 5] = [2, 3, 0x80, 0x81, 255];
const UNKNOWN: [u8; 9] = [0, 6, 7, 8, 0x15, 0x41, 0x80, 0x81, 255];
/// Places in the bytes of an add.
const KIND: usize = 2;
const MARK: usize = 3;

pub fn scripts() -> Vec<Vec<u8>> {
    let mut scripts = Vec::new();
    scripts.extend(kinds_and_marks_of_adds());
    scripts.extend(marks());
    scripts.extend(unknown());
    scripts.into_iter().map(Script::bytes).collect()
}

fn add_with(add: &Add, at: usize, value: u8) -> Vec<u8> {
    let mut bytes = record(&Call::Change(Change::Add(add.clone())));
    bytes[at] = value;
    bytes
}

/// Adds that would be done, and such as would be refused.
fn kinds_and_marks_of_adds() -> Vec<Script> {
    let no_object = below(7, CONTAINER);
    let no_container = below(2, LEAF);
    let bad_owner = below(0, LEAF).with_owner(Vec::new());
    let adds = [
        (Script::new(), root(CONTAINER).with_list(of_creator(0x03))),
        (family(), below(0, LEAF)),
        (family(), no_object),
        (family(), no_container),
        (family(), root(CONTAINER)),
        (family(), bad_owner),
    ];
    let mut scripts = Vec::new();
    for (before, add) in adds {
        for (turn, value) in ABOVE_ONE.into_iter().enumerate() {
            for at in [KIND, MARK] {
                let script = before.clone().raw(&add_with(&add, at, value));
                // Behind it stands what would be a good record.
                scripts.push(script.undo(turn % 2));
            }
        }
    }
    let root = root(CONTAINER);
    scripts.push(Script::new().raw(&add_with(&root, KIND, 2)[..3]));
    scripts.push(Script::new().raw(&add_with(&root, MARK, 2)[..4]));
    scripts
}

fn marks() -> Vec<Script> {
    let mut scripts = Vec::new();
    for object in [0, 2, 3, 16, 0xFE, 0xFF] {
        for mark in ABOVE_ONE {
            scripts.push(family().raw(&[3, object, mark]).undo(1));
        }
        // These end nothing: there is no such object, or there is.
        for mark in [0, 1] {
            scripts.push(family().raw(&[3, object, mark]).undo(1));
        }
    }
    for mark in [0, 1, 2, 255] {
        scripts.push(Script::new().raw(&[3, 0, mark]));
    }
    scripts
}

fn unknown() -> Vec<Script> {
    let mut scripts = Vec::new();
    for byte in UNKNOWN {
        scripts.extend([
            Script::new().raw(&[byte]),
            document().raw(&[byte]),
            document().change(set_mark(5, true)).undo(1).raw(&[byte]),
            document().raw(&[byte]).add(below(0, LEAF)),
        ]);
    }
    // One that only looks like a record, inside a list that is refused.
    let unknown_in_a_list = [2, 0, 3, 0, 255, 255, 255];
    scripts.push(document().raw(&unknown_in_a_list));
    scripts.push(document().raw(&unknown_in_a_list).raw(&[255]));
    scripts
}
