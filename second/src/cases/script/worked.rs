//! What document 01 works by hand, and the smallest scripts of each kind.

use super::make::{Script, case, document, family, text_length};
use crate::cases::build::nt_sid;
use crate::cases::tree::make::{
    CONTAINER, LEAF, PROTECTED, below, of_creator, one_entry, remove_list, root, set_list,
    set_mark, set_owner, system,
};
use crate::cases::tree::worked::pairs;
use crate::records::Case;
use crate::tree::{Add, Call, Change};

const EMPTY: [u8; 8] = [2, 0, 8, 0, 0, 0, 0, 0];

pub fn scripts() -> Vec<Vec<u8>> {
    let mut scripts = vec![document(), Script::new(), family()];
    scripts.extend(records_alone());
    scripts.extend(records_on_a_family());
    scripts.extend(documents_pairs());
    scripts.extend(absent_and_empty());
    scripts.into_iter().map(Script::bytes).collect()
}

/// Every length of `out` from none to one more than the text's, for a few.
pub fn lengths_of_out() -> Vec<Case> {
    let mut cases = Vec::new();
    let bad = document().raw(&[9]).bytes();
    for script in [document().bytes(), Script::new().bytes(), bad, Vec::new()] {
        for out_length in 0..=text_length(&script) + 1 {
            cases.push(case(script.clone(), out_length));
        }
    }
    for script in [document().bytes(), family().bytes()] {
        cases.push(case(script.clone(), text_length(&script) - 1));
        cases.push(case(script, 1_100));
    }
    cases
}

fn calls() -> Vec<Call> {
    let changes = [
        Change::Add(root(CONTAINER).with_list(of_creator(0x03))),
        Change::Add(root(CONTAINER)),
        Change::Add(root(LEAF)),
        Change::Add(root(CONTAINER | PROTECTED).with_list(one_entry(0x03, 1))),
        Change::Add(below(0, CONTAINER)),
        Change::Add(below(1, LEAF)),
        set_list(0, one_entry(0x03, 1)),
        set_list(0, EMPTY.to_vec()),
        remove_list(0),
        remove_list(2),
        set_mark(0, true),
        set_mark(1, true),
        set_mark(2, true),
        set_mark(2, false),
        set_owner(0, nt_sid(&[1, 2, 3]), system()),
        set_owner(1, nt_sid(&[]), nt_sid(&[1, 2, 3])),
    ];
    let changes = changes.into_iter().map(Call::Change);
    changes.chain([Call::Undo]).collect()
}

fn records_alone() -> Vec<Script> {
    let alone = |call: &Call| Script::new().call(call);
    calls().iter().map(alone).collect()
}

/// Each as the last record, and each undone.
fn records_on_a_family() -> Vec<Script> {
    let mut scripts = Vec::new();
    for call in calls() {
        let script = family().call(&call);
        scripts.extend([script.clone(), script.undo(1)]);
    }
    scripts
}

/// K1 to K10, with a grandchild too.
fn documents_pairs() -> Vec<Script> {
    let mut scripts = Vec::new();
    for (parent_flags, child) in pairs() {
        let pair = Script::new()
            .add(root(CONTAINER).with_list(of_creator(parent_flags)))
            .add(child.clone());
        let grandchild = Add { parent: 1, ..child };
        scripts.extend([pair.clone(), pair.add(grandchild)]);
    }
    scripts
}

fn absent_and_empty() -> Vec<Script> {
    let mut scripts = Vec::new();
    let lists = [
        None,
        Some(EMPTY.to_vec()),
        Some(one_entry(0x00, 1)),
        Some(one_entry(0x01, 1)),
        Some(one_entry(0x02, 1)),
    ];
    for list in lists {
        let add = root(CONTAINER);
        let add = match list {
            Some(list) => add.with_list(list),
            None => add,
        };
        let script = Script::new()
            .add(add)
            .add(below(0, CONTAINER))
            .add(below(0, LEAF))
            .add(below(1, LEAF).with_list(EMPTY.to_vec()));
        scripts.extend([
            script.clone().change(remove_list(3)),
            script.clone().change(set_list(0, EMPTY.to_vec())),
            script.clone().change(remove_list(0)),
            script,
        ]);
    }
    scripts
}
