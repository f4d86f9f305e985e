//! Undo: with nothing kept, past the sixteen kept steps, and of adds.

use super::make::{Script, document};
use crate::cases::build::nt_sid;
use crate::cases::tree::make::{
    CONTAINER, LEAF, below, of_creator, one_entry, remove_list, root, set_list, set_mark,
    set_owner, system,
};
use crate::script::MOST_STEPS;
use crate::tree::Change;

pub fn scripts() -> Vec<Vec<u8>> {
    let mut scripts = vec![
        Script::new().undo(1),
        Script::new().undo(20),
        Script::new().undo(1).add(root(LEAF)),
    ];
    for changes in [1, 2, 15, 16, 17, 18, 31, 32, 40] {
        for undone in [1, 2, 14, 15, 16, 17, 18, 33] {
            scripts.push(owners_in_turn(changes).undo(undone));
        }
    }
    scripts.extend(there_and_back());
    scripts.extend(adds());
    scripts.extend(no_change_to_see());
    scripts.into_iter().map(Script::bytes).collect()
}

/// The length of the root's list tells which owner it has.
fn owner(turn: usize) -> Change {
    set_owner(0, nt_sid(&vec![3; turn % 16]), system())
}

fn owners_in_turn(changes: usize) -> Script {
    let start = Script::new().add(root(LEAF).with_list(of_creator(0x00)));
    (1..changes).fold(start, |script, turn| script.change(owner(turn)))
}

/// What was undone makes place for new steps.
fn there_and_back() -> Vec<Script> {
    let full = owners_in_turn(MOST_STEPS + 4);
    let mut scripts = Vec::new();
    for back in [1, 7, MOST_STEPS] {
        let again = (0..back).fold(full.clone().undo(back), |script, turn| {
            script.change(owner(turn + 5))
        });
        for undone in [1, MOST_STEPS - 1, MOST_STEPS, MOST_STEPS + 1] {
            scripts.push(again.clone().undo(undone));
        }
    }
    scripts
}

/// An undone add frees its number for another object.
fn adds() -> Vec<Script> {
    let leaf = || below(0, LEAF).with_list(one_entry(0x00, 1));
    let container = || below(0, CONTAINER).with_owner(nt_sid(&[]));
    vec![
        document().undo(1),
        document().undo(2),
        document().undo(3),
        document().undo(2).add(root(LEAF)),
        document().undo(2).add(below(0, LEAF)),
        document().undo(1).add(leaf()),
        document().undo(1).add(leaf()).add(below(1, LEAF)),
        document().undo(1).add(container()).add(below(1, LEAF)),
        document().add(leaf()).undo(1).add(container()).undo(1),
        document().add(leaf()).add(container()).undo(2).add(leaf()),
        document().change(set_mark(1, true)).undo(2).add(leaf()),
        document().undo(1).change(set_mark(1, true)).undo(1),
        // The own list comes back with its object's step, not with the add.
        document().change(remove_list(0)).undo(1).add(container()),
        document().change(remove_list(0)).undo(2).add(container()),
        // Forgotten adds stay.
        (0..15)
            .fold(document(), |s, turn| s.change(owner(turn)))
            .undo(30),
        (0..16)
            .fold(document(), |s, turn| s.change(owner(turn)))
            .undo(30),
        (0..17)
            .fold(document(), |s, turn| s.change(owner(turn)))
            .undo(30),
    ]
}

/// Setting what stands is a step too: it takes an undo of its own.
fn no_change_to_see() -> Vec<Script> {
    let same = [
        set_list(0, of_creator(0x03)),
        remove_list(1),
        set_mark(0, false),
        set_owner(1, system(), system()),
    ];
    let mut scripts = Vec::new();
    for change in same {
        for undone in 0..4 {
            let script = document().change(change.clone());
            scripts.push(script.undo(undone));
        }
        let twenty = (0..20).fold(document(), |s, _| s.change(change.clone()));
        scripts.push(twenty.undo(20));
    }
    scripts
}
