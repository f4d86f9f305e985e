//! What the computation does to the lists of a tree: marks, placeholders,
//! object types, and lists that would pass 1,024 bytes.

use super::make::{Script, document, of_calls};
use crate::cases::build::{EntryPlan, counting_guid, creator_sid, good_list, nt_sid};
use crate::cases::tree::make::{
    CONTAINER, LEAF, PROTECTED, below, entries_of, list_of_length, of_creator, one_entry,
    remove_list, root, set_list, set_mark, set_owner, system,
};
use crate::cases::tree::{chains, crossing, shapes};
use crate::tree::{Add, LONGEST_LIST};

/// Longer ones of the tree's own sequences are left to the tree.
const LONGEST: usize = 2_000;

pub fn scripts() -> Vec<Vec<u8>> {
    let mut scripts = marks();
    scripts.extend(placeholders());
    scripts.extend(object_types());
    scripts.extend(chains_that_grow());
    scripts.extend(at_the_limit());
    let mut scripts: Vec<Vec<u8>> = scripts.into_iter().map(Script::bytes).collect();
    let of_trees = [
        chains::sequences(),
        crossing::sequences(),
        shapes::sequences(),
    ];
    let of_trees = of_trees.iter().flatten().map(|calls| of_calls(calls));
    scripts.extend(of_trees.map(Script::bytes).filter(|s| s.len() <= LONGEST));
    scripts
}

/// Given with the add or set later; with an own list or none.
fn marks() -> Vec<Script> {
    let own = || one_entry(0x03, 8);
    let with_child = |add: Add| document().add(add).add(below(2, LEAF));
    vec![
        with_child(below(0, CONTAINER | PROTECTED)),
        with_child(below(0, CONTAINER | PROTECTED).with_list(own())),
        with_child(below(0, CONTAINER).with_list(own())),
        with_child(below(0, CONTAINER)).change(set_mark(2, true)),
        with_child(below(0, CONTAINER).with_list(own())).change(set_mark(2, true)),
        with_child(below(0, CONTAINER | PROTECTED).with_list(own())).change(set_mark(2, false)),
        with_child(below(0, CONTAINER | PROTECTED).with_list(own())).change(remove_list(2)),
        with_child(below(0, CONTAINER | PROTECTED)).change(set_list(2, own())),
        with_child(below(0, CONTAINER | PROTECTED)).change(set_list(2, good_list(&[]))),
        with_child(below(1, CONTAINER)).change(set_mark(0, true)),
    ]
}

fn placeholders() -> Vec<Script> {
    let both = |flags| {
        good_list(&[
            EntryPlan::plain(0, flags, creator_sid(0)),
            EntryPlan::plain(0, flags, creator_sid(1)),
            EntryPlan::plain(0, flags, creator_sid(2)),
        ])
    };
    let mut scripts = Vec::new();
    for flags in [0x00, 0x01, 0x02, 0x03, 0x07, 0x0B, 0x1B] {
        let script = Script::new()
            .add(
                root(CONTAINER)
                    .with_list(both(flags))
                    .with_owner(nt_sid(&[])),
            )
            .add(below(0, CONTAINER).with_owner(nt_sid(&[1, 2])))
            .add(below(1, CONTAINER).with_group(nt_sid(&[1, 2, 3])))
            .add(below(2, LEAF).with_owner(nt_sid(&[4; 15])));
        let other_owner = set_owner(0, nt_sid(&[1; 7]), nt_sid(&[2; 3]));
        scripts.extend([
            script.clone(),
            script.clone().change(other_owner),
            script.change(set_owner(1, nt_sid(&[]), nt_sid(&[9; 9]))),
        ]);
    }
    scripts
}

/// Types 05 and 06, without GUIDs and with one or both, for objects of the
/// type and of another.
fn object_types() -> Vec<Script> {
    let [of_objects, other] = [0x40, 0x60].map(counting_guid);
    let typed = |add: Add, object_type| Add { object_type, ..add };
    let mut scripts = Vec::new();
    for entry_type in [5, 6] {
        for word in 0..4 {
            for flags in [0x03, 0x02, 0x0B, 0x07] {
                let entry = EntryPlan::object(entry_type, flags, word, creator_sid(0));
                let list = good_list(&[entry]);
                scripts.push(
                    Script::new()
                        .add(root(CONTAINER).with_list(list))
                        .add(typed(below(0, CONTAINER), of_objects))
                        .add(typed(below(0, CONTAINER), other))
                        .add(typed(below(1, LEAF), other))
                        .add(typed(below(2, LEAF), of_objects)),
                );
            }
        }
    }
    scripts
}

fn link(number: u32) -> Add {
    match number {
        0 => root(CONTAINER),
        _ => below(number - 1, CONTAINER),
    }
}

/// From some level on each add is refused, or each change of the root.
fn chains_that_grow() -> Vec<Script> {
    let mut scripts = Vec::new();
    for (levels, size) in [(6, 152), (8, 100), (9, 76), (12, 48), (16, 20)] {
        let own = || good_list(&entries_of(0x03, size));
        let chain = (0..levels).fold(Script::new(), |s, n| s.add(link(n).with_list(own())));
        scripts.extend([
            chain.clone(),
            chain.clone().undo(3),
            chain.clone().change(remove_list(1)).add(below(2, LEAF)),
            chain.change(set_list(0, good_list(&entries_of(0x03, 300)))),
        ]);
    }
    scripts
}

/// Lists of 1,024 bytes and of a step more, given or computed.
fn at_the_limit() -> Vec<Script> {
    let mut scripts = Vec::new();
    for length in [LONGEST_LIST - 4, LONGEST_LIST, LONGEST_LIST + 4] {
        scripts.push(Script::new().add(root(LEAF).with_list(list_of_length(0, length))));
        let given = document().change(set_list(1, list_of_length(0, length - 40)));
        scripts.extend([given.clone(), given.change(set_mark(1, true))]);
    }
    // Twenty placeholders: the owner's length decides.
    let list = good_list(&vec![EntryPlan::plain(0, 0x00, creator_sid(0)); 20]);
    let many = Script::new().add(root(LEAF).with_list(list));
    for numbers in [7, 8, 9, 10, 15] {
        let longer = set_owner(0, nt_sid(&vec![2; numbers]), system());
        scripts.push(many.clone().change(longer.clone()));
        scripts.push(many.clone().change(longer).change(remove_list(0)).undo(1));
    }
    scripts.push(many.change(set_list(0, of_creator(0x1F))));
    scripts
}
