//! Records that are passed over. An undo behind one takes off what was done
//! before it.

use super::make::{FAMILY, Script, document, family};
use crate::cases::build::{creator_sid, nt_sid};
use crate::cases::inherit::refusals::{bad_lists, bad_sids};
use crate::cases::tree::make::{
    CONTAINER, LEAF, below, list_of_length, of_creator, one_entry, remove_list, root, set_list,
    set_mark, set_owner, system, too_long,
};
use crate::random::Random;
use crate::script::MOST_OBJECTS;
use crate::tree::{Add, Change};

pub fn scripts(random: &mut Random) -> Vec<Vec<u8>> {
    let mut changes = lists();
    changes.extend(identities(random));
    changes.extend(numbers());
    let on_a_family = changes.into_iter().enumerate();
    let mut scripts: Vec<Script> = on_a_family
        .map(|(turn, change)| family().change(change).undo(turn / 2 % 2))
        .collect();
    scripts.extend(seventeenth());
    scripts.extend(first_adds());
    scripts.push(many_in_a_row());
    scripts.into_iter().map(Script::bytes).collect()
}

/// Each in an add, and given to the root or to the object at the end.
fn lists() -> Vec<Change> {
    let mut lists = bad_lists();
    // No bytes at all would be an absent list.
    lists.retain(|list| !list.is_empty());
    lists.extend([vec![2], too_long(), list_of_length(0, 2_000)]);
    let lists = lists.into_iter().enumerate();
    let given = |(turn, list): (usize, Vec<u8>)| {
        let object = [0, 2][turn % 2];
        let add = below(0, LEAF).with_list(list.clone());
        [set_list(object, list), Change::Add(add)]
    };
    lists.flat_map(given).collect()
}

fn identities(random: &mut Random) -> Vec<Change> {
    let mut sids = vec![Vec::new(), nt_sid(&[7; 15]).repeat(2)];
    sids.extend([69, 72, 128, 254, 255].map(|length| padded(nt_sid(&[7; 15]), length)));
    sids.extend(bad_sids(random).into_iter().step_by(3));
    let mut changes: Vec<Change> = sids
        .into_iter()
        .enumerate()
        .map(|(turn, sid)| match turn % 4 {
            0 => set_owner(0, sid, system()),
            1 => set_owner(1, system(), sid),
            2 => Change::Add(below(0, LEAF).with_owner(sid)),
            _ => Change::Add(below(1, CONTAINER).with_group(sid)),
        })
        .collect();
    for placeholder in [creator_sid(0), creator_sid(1)] {
        changes.extend([
            set_owner(0, placeholder.clone(), system()),
            set_owner(0, system(), placeholder.clone()),
            Change::Add(below(0, LEAF).with_owner(placeholder.clone())),
            Change::Add(below(0, LEAF).with_group(placeholder)),
        ]);
    }
    changes
}

pub fn padded(mut sid: Vec<u8>, length: usize) -> Vec<u8> {
    sid.resize(length, 0);
    sid
}

/// Objects and parents that don't stand, or are no container.
fn numbers() -> Vec<Change> {
    let mut changes = Vec::new();
    for number in [FAMILY, 4, 15, 16, 64, 128, 0xFE, 0xFF] {
        changes.extend([
            set_list(number, one_entry(0x03, 4)),
            remove_list(number),
            set_mark(number, true),
            set_owner(number, system(), system()),
            Change::Add(below(number, CONTAINER)),
        ]);
    }
    changes.push(Change::Add(below(2, LEAF)));
    changes.push(Change::Add(root(CONTAINER).with_list(of_creator(0x03))));
    changes
}

/// Full after sixteen; an undo makes place for one again.
fn seventeenth() -> Vec<Script> {
    let small = |parent| below(parent, CONTAINER).with_owner(nt_sid(&[]));
    let full = (1..MOST_OBJECTS).fold(
        Script::new().add(root(CONTAINER).with_list(of_creator(0x03))),
        |script, number| script.add(small(number as u32 / 2)),
    );
    let once_more = full.clone().add(small(0));
    let last = MOST_OBJECTS as u32 - 1;
    vec![
        full.clone(),
        once_more.clone(),
        once_more.clone().undo(1),
        once_more.clone().undo(1).add(small(last - 1)),
        once_more.clone().undo(1).add(small(last)),
        once_more.undo(2).add(small(0)).add(small(0)).add(small(0)),
        // 9 comes before 10: both are passed over.
        full.clone().add(small(16)).change(set_mark(last, true)),
        full.change(set_list(last, one_entry(0x03, 1))).undo(16),
    ]
}

fn first_adds() -> Vec<Script> {
    let numbered = [0, 1, 15, 16, 0xFE];
    let mut scripts: Vec<Script> = numbered
        .map(|parent| Script::new().add(below(parent, CONTAINER)))
        .into();
    for parent in numbered {
        scripts.push(Script::new().add(below(parent, LEAF)).add(root(LEAF)));
    }
    // A first object that is no container takes none below it.
    let lonely = Script::new().add(root(LEAF).with_list(of_creator(0x03)));
    scripts.extend([
        lonely.clone().add(below(0, LEAF)),
        lonely.clone().add(root(CONTAINER)),
        lonely.undo(1).add(root(CONTAINER)).add(below(0, LEAF)),
    ]);
    scripts
}

/// The steps of what was done stay; nothing refused is kept.
fn many_in_a_row() -> Script {
    let refused = |script: Script, number: u32| {
        script
            .change(set_mark(9, true))
            .change(set_list(0, too_long_or_bad(number)))
            .add(Add {
                parent: 0xFE,
                ..below(0, LEAF)
            })
    };
    (0..20).fold(document(), refused).undo(1)
}

fn too_long_or_bad(number: u32) -> Vec<u8> {
    match number {
        0 => too_long(),
        _ => vec![number as u8; number as usize],
    }
}
