//! What is counted of trees and of changes that came in two orders.

use super::apart::within;
use super::orders::Played;
use crate::deep::{lists_in_turn, reached};
use crate::report::Report;
use second::room::Found;
use second::tree::{Change, LONGEST_LIST, apply};

pub fn tree(report: &mut Report, found: &Found) {
    report.add_branch(match found.settings.rule {
        1 => "rule 1",
        _ => "rule 2",
    });
    report.add_branch(match found.settings.default_list {
        Some(_) => "with a default list",
        None => "without a default list",
    });
    for (what, value) in reached(found) {
        report.reach(what, value);
    }
}

/// Each once, whatever the number of orders.
pub fn numbers(report: &mut Report, changes: &[Change], played: &Played) {
    for (change, answer) in changes.iter().zip(&played.answers) {
        let name = match kind(change) {
            Kind::List => "set list, apart",
            Kind::Mark => "set mark, apart",
            Kind::Owner => "set owner, apart",
        };
        report.add_call(name, answer.map_or(0, |answer| answer[0]));
    }
}

/// Of changes that don't hang on each other, with what refuses them.
pub fn answers(report: &mut Report, found: &Found, changes: &[Change], played: &Played) {
    numbers(report, changes, played);
    for (change, answer) in changes.iter().zip(&played.answers) {
        match answer.map(|answer| answer[0]) {
            Some(8) => report.add_times(too_long(found, change), 1),
            Some(9) => report.add_times("an object that doesn't stand", 1),
            _ => {}
        }
    }
}

/// Which list it is, of a change that is refused by 8.
fn too_long(found: &Found, change: &Change) -> &'static str {
    if change
        .given_list()
        .is_some_and(|list| list.len() > LONGEST_LIST)
    {
        return "8 by the list given";
    }
    let mut objects = found.objects.clone();
    apply(&mut objects, change);
    match lists_in_turn(&found.settings, &objects) {
        Err(first) if first == change.object(objects.len()) => "8 by the changed object's list",
        Err(_) => "8 by a list below",
        Ok(_) => "8 by nothing",
    }
}

#[derive(PartialEq, Eq, PartialOrd, Ord)]
enum Kind {
    List,
    Mark,
    Owner,
}

fn kind(change: &Change) -> Kind {
    match change {
        Change::SetList { .. } => Kind::List,
        Change::SetMark { .. } => Kind::Mark,
        Change::SetOwner { .. } => Kind::Owner,
        Change::Add(_) => unreachable!("adds are no part of it"),
    }
}

/// Of two changes that are accepted: their kinds, what is below both objects,
/// and the row of kept steps before them.
pub fn accepted(report: &mut Report, found: &Found, changes: [&Change; 2]) {
    let mut kinds = changes.map(kind);
    kinds.sort();
    let name = match kinds {
        [Kind::List, Kind::List] => "both accepted: list and list",
        [Kind::List, Kind::Mark] => "both accepted: list and mark",
        [Kind::List, Kind::Owner] => "both accepted: list and owner",
        [Kind::Mark, Kind::Mark] => "both accepted: mark and mark",
        [Kind::Mark, _] => "both accepted: mark and owner",
        [_, _] => "both accepted: owner and owner",
    };
    report.add_times(name, 1);
    let objects = &found.objects;
    let has_some = |change: &Change| within(objects, change.object(objects.len())).len() > 1;
    if changes.into_iter().all(has_some) {
        report.add_times("both accepted: something below each", 1);
    }
    let (kept, most) = (found.steps.len(), found.limits.steps);
    if most == 0 {
        report.add_times("both accepted: no step is kept", 1);
    } else if kept == most {
        report.add_times("both accepted: a full row of kept steps", 1);
    } else if kept + 1 == most {
        report.add_times("both accepted: place for one kept step", 1);
    }
}
