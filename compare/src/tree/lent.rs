//! How the parts of a tree's call are lent, and which of them are one range.

use crate::capi::lending::{Lending, Shared};
use crate::report::Report;
use second::random::Random;
use second::tree::{Call, Change};

/// How often parts that are the same bytes are one range.
const ONE_IN: usize = 4;

pub fn lending(random: &mut Random, call: &Call) -> Lending {
    let mapping = match call {
        Call::Start { start, .. } => Some(start.mapping),
        _ => None,
    };
    Lending::draw(random, ONE_IN, &parts(call), mapping)
}

/// All that the call only reads, but for the room and a mapping.
fn parts(call: &Call) -> Vec<&[u8]> {
    match call {
        Call::Start { start, .. } => vec![&start.default_list],
        Call::Change(Change::Add(add)) => {
            vec![&add.object_type, &add.owner, &add.group, &add.list]
        }
        Call::Change(Change::SetList { list, .. }) => vec![list],
        Call::Change(Change::SetOwner { owner, group, .. }) => vec![owner, group],
        _ => Vec::new(),
    }
}

pub fn count_shared(report: &mut Report, lending: &Lending, call: &Call) {
    let whole = |one: &[u8], other: &[u8]| lending.shared(one, other) == Shared::Whole;
    let overlap = |one: &[u8], other: &[u8]| lending.shared(one, other) != Shared::Nothing;
    let found = match call {
        Call::Start { start, .. } if start.has_default != 0 => {
            let shared = lending.shared_with_mapping(&start.default_list, start.mapping);
            vec![("start: a mapping in the list", shared != Shared::Nothing)]
        }
        Call::Change(change @ Change::Add(add)) => {
            let list = change.given_list().unwrap_or_default();
            vec![
                ("add: the type in the list", overlap(list, &add.object_type)),
                ("add: the owner in the list", overlap(list, &add.owner)),
                (
                    "add: one range for owner and group",
                    whole(&add.owner, &add.group),
                ),
            ]
        }
        Call::Change(Change::SetOwner { owner, group, .. }) => {
            vec![("set owner: one range for both", whole(owner, group))]
        }
        _ => Vec::new(),
    };
    for (what, _) in found.into_iter().filter(|&(_, yes)| yes) {
        report.add_times(what, 1);
    }
}
