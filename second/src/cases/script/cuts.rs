//! A script that holds every kind of record, cut at every byte.

use super::make::Script;
use crate::cases::build::nt_sid;
use crate::cases::tree::make::{
    CONTAINER, LEAF, below, of_creator, one_entry, root, set_list, set_mark, set_owner, system,
};

pub fn all_kinds() -> Vec<u8> {
    Script::new()
        .add(root(CONTAINER).with_list(of_creator(0x03)))
        .change(set_list(0, one_entry(0x02, 9)))
        .change(set_mark(0, true))
        .change(set_owner(0, nt_sid(&[1, 2]), system()))
        .undo(1)
        .add(below(0, LEAF))
        .bytes()
}

/// The whole comes last.
pub fn scripts() -> Vec<Vec<u8>> {
    let whole = all_kinds();
    (0..=whole.len())
        .map(|length| whole[..length].to_vec())
        .collect()
}
