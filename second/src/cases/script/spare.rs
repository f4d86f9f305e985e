//! Records whose lists have spare bytes. Those of 65,535 bytes in all stand
//! among the long ones.

use super::fresh;
use super::make::{Script, document};
use crate::cases::build::{good_list, random_spare, with_count, with_spare};
use crate::cases::tree::fresh::Faults;
use crate::cases::tree::make::{
    CONTAINER, LEAF, below, list_of_length, of_creator, one_entry, root, set_list, set_mark,
};
use crate::cases::tree::palette::Palette;
use crate::random::Random;
use crate::tree::LONGEST_LIST;

const STORED: usize = 30;

pub fn scripts(random: &mut Random) -> Vec<Vec<u8>> {
    let mut scripts = every_short_length(random);
    scripts.extend(hidden_entries());
    scripts.extend(lengths());
    scripts.extend(what_looks_like_records());
    let mut scripts: Vec<Vec<u8>> = scripts.into_iter().map(Script::bytes).collect();
    scripts.extend(cuts());
    let faults = Faults::draw(random);
    for _ in 0..STORED {
        scripts.push(fresh::one(random, &faults, Palette::with_spare_bytes));
    }
    scripts
}

fn filled_up(list: &[u8], length: usize) -> Vec<u8> {
    with_spare(list, &vec![0xEE; length - list.len()])
}

/// In an add and in a set list, undone at times.
fn every_short_length(random: &mut Random) -> Vec<Script> {
    let mut scripts = Vec::new();
    for length in 1..=20 {
        let list = [of_creator(0x03), good_list(&[])][length % 2].clone();
        let list = with_spare(&list, &random_spare(random, length));
        let added = Script::new()
            .add(root(CONTAINER).with_list(list.clone()))
            .add(below(0, CONTAINER));
        let set = document().change(set_list(length as u32 % 2, list));
        scripts.extend([added, set.clone(), set.undo(1)]);
    }
    scripts
}

fn hidden_entries() -> Vec<Script> {
    let hidden = || with_count(&of_creator(0x03), 0);
    vec![
        Script::new()
            .add(root(CONTAINER).with_list(hidden()))
            .add(below(0, CONTAINER)),
        document().change(set_list(0, hidden())),
        document().change(set_list(1, hidden())),
        document().change(set_list(0, hidden())).undo(1),
        document()
            .change(set_list(0, hidden()))
            .change(set_list(0, of_creator(0x03))),
    ]
}

/// 1,024 bytes are taken, one more isn't: such a record is passed over, and
/// what follows is played.
fn lengths() -> Vec<Script> {
    let mut scripts = Vec::new();
    for length in [LONGEST_LIST - 1, LONGEST_LIST, LONGEST_LIST + 1, 2_000] {
        let list = || filled_up(&of_creator(0x03), length);
        scripts.extend([
            Script::new().add(root(CONTAINER).with_list(list())),
            document().change(set_list(1, list())).undo(1),
            document()
                .change(set_list(0, filled_up(&good_list(&[]), length)))
                .add(below(0, LEAF)),
        ]);
    }
    // The entries alone would come to 1,024 bytes twice.
    let entries = list_of_length(0x02, 520);
    scripts.push(document().change(set_list(0, filled_up(&entries, LONGEST_LIST))));
    let longer = filled_up(&one_entry(0x03, 3), 4_000);
    scripts.push(
        document()
            .change(set_list(0, longer))
            .change(set_mark(1, true))
            .add(below(1, LEAF).with_list(filled_up(&one_entry(0x00, 2), 60))),
    );
    scripts
}

/// Undos, adds and unknown records among the spare bytes are no records.
fn what_looks_like_records() -> Vec<Script> {
    let whole = document().bytes();
    let tails = [vec![5; 9], vec![6; 9], whole[5..].to_vec(), b"AXS".to_vec()];
    let mut scripts = Vec::new();
    for tail in tails {
        let list = with_spare(&of_creator(0x03), &tail);
        scripts.push(document().change(set_list(0, list.clone())));
        scripts.push(document().add(below(0, LEAF).with_list(list)).undo(1));
    }
    scripts
}

/// A record cut among its spare bytes is bad, at its own offset.
fn cuts() -> Vec<Vec<u8>> {
    let list = with_spare(&of_creator(0x03), &[5; 12]);
    let whole = document().change(set_list(0, list)).bytes();
    (0..=13)
        .map(|less| whole[..whole.len() - less].to_vec())
        .collect()
}
