//! Long records, among them the longest, and scripts of any length.

use std::io::{self, Write};

use super::make::{Script, document};
use super::refusals::padded;
use crate::cases::build::{fix_size, nt_sid};
use crate::cases::tree::make::{
    CONTAINER, LEAF, below, list_of_length, one_entry, root, set_list, set_mark,
};
use crate::script::record;
use crate::tree::{Add, Call, Change};

/// Of a record's list.
const LONGEST_LIST: usize = 65_535;
/// Of a record's owner and group.
const LONGEST_SID: usize = 255;
const LONGEST_RECORD: usize = 66_069;

pub fn scripts() -> Vec<Vec<u8>> {
    let longest = record(&Call::Change(Change::Add(longest_add(0))));
    assert_eq!(longest.len(), LONGEST_RECORD);
    let good_but_too_long = list_of_length(0x03, LONGEST_LIST - 3);
    let scripts = [
        document().change(set_list(0, longest_list())).undo(1),
        document().add(below(0, LEAF).with_list(good_but_too_long)),
        document()
            .raw(&longest)
            .raw(&longest)
            .add(below(1, LEAF).with_list(one_entry(0x00, 2))),
        document().raw(&longest[..LONGEST_RECORD - 1]),
        document().raw(&longest).raw(&[6]).undo(1),
        Script::new()
            .change(set_list(0xFF, vec![0xFF; LONGEST_LIST]))
            .add(root(LEAF)),
    ];
    scripts.map(Script::bytes).into()
}

/// Good, with three spare bytes, and too long for a tree.
fn longest_list() -> Vec<u8> {
    let mut list = list_of_length(0x03, LONGEST_LIST - 3);
    list.extend([0; 3]);
    fix_size(&mut list);
    list
}

/// It is refused by any parent: no identity is so long.
fn longest_add(parent: u32) -> Add {
    below(parent, CONTAINER)
        .with_owner(padded(nt_sid(&[3; 15]), LONGEST_SID))
        .with_group(padded(nt_sid(&[4; 15]), LONGEST_SID))
        .with_list(longest_list())
}

/// Writes document 01's example, then refused records until so many bytes are
/// passed, then a few that are done.
pub fn write(out: &mut impl Write, least: u64) -> io::Result<()> {
    let example = document().bytes();
    out.write_all(&example)?;
    let refused = [
        Change::Add(longest_add(0)),
        set_list(0, longest_list()),
        set_list(1, vec![0xFF; LONGEST_LIST]),
        set_list(9, longest_list()),
        Change::Add(longest_add(9)),
        set_list(0xFF, vec![0; LONGEST_LIST]),
        Change::Add(below(0, LEAF).with_list(longest_list())),
    ];
    let refused = refused.map(|change| record(&Call::Change(change)));
    let mut written = example.len() as u64;
    for bytes in refused.iter().cycle() {
        if written >= least {
            break;
        }
        out.write_all(bytes)?;
        written += bytes.len() as u64;
    }
    let done = [
        Change::Add(below(1, LEAF).with_list(one_entry(0x00, 2))),
        set_mark(2, true),
        set_list(0, one_entry(0x03, 7)),
        Change::Add(below(0, LEAF)),
    ];
    for change in done {
        out.write_all(&record(&Call::Change(change)))?;
    }
    // The last add goes again.
    out.write_all(&record(&Call::Undo))
}

#[cfg(test)]
mod tests {
    use super::*;
    use crate::script::play_watched;

    /// The root's list is 28 bytes, below it stand a container with twice its
    /// entry and a marked object with its own alone.
    #[test]
    fn the_long_one_is_good_and_long_enough() {
        let mut script = Vec::new();
        write(&mut script, 700_000).unwrap();
        assert!((700_000..800_000).contains(&script.len()));
        let mut refused = 0;
        let played = play_watched(&script, |_, outcome| {
            refused += usize::from(outcome.is_refused());
        });
        assert_eq!(refused, 11);
        assert_eq!(played.text, "objects 3\n0 28 1\n1 48 2\n2 28 1\n");
    }
}
