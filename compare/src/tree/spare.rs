//! What is counted of lists with spare bytes, and of lists with conditions,
//! given to a tree and read back.

use crate::report::Report;
use second::list::{has_conditions, spare_bytes};
use second::room::{Found, Step};
use second::tree::{Call, Change, LONGEST_LIST, Outcome, Part, Refused};

/// By what the second program made of the call.
pub fn count(report: &mut Report, call: &Call, outcome: &Outcome) {
    match outcome.result() {
        Some(Ok(_)) => {
            let list = met(call, outcome).unwrap_or_default();
            let met = [spare_bytes(list) > 0, has_conditions(list)];
            let names = names(call).into_iter().flatten().zip(met);
            for (name, _) in names.filter(|&(_, yes)| yes) {
                report.add_times(name, 1);
            }
        }
        Some(Err(Refused::GivenTooLong | Refused::DefaultTooLong)) => {
            let list = given(call).unwrap_or_default();
            if list.len() - spare_bytes(list) <= LONGEST_LIST {
                report.add_times("8 by spare bytes alone", 1);
            }
        }
        _ => {}
    }
}

/// Where there are spare bytes, and where there is a condition.
fn names(call: &Call) -> Option<[&'static str; 2]> {
    match call {
        Call::Start { .. } => Some(["start with spare bytes", "start with a condition"]),
        Call::Change(Change::Add(_)) => Some(["add with spare bytes", "add with a condition"]),
        Call::Change(Change::SetList { .. }) => {
            Some(["set list with spare bytes", "set list with a condition"])
        }
        Call::Read { part, .. } => match part {
            Part::Own => Some(["own list with spare bytes", "own list with a condition"]),
            Part::List => Some([
                "computed list with spare bytes",
                "computed list with a condition",
            ]),
            Part::Data => None,
        },
        _ => None,
    }
}

fn given(call: &Call) -> Option<&[u8]> {
    match call {
        Call::Start { start, .. } => start.default_list(),
        Call::Change(change) => change.given_list(),
        _ => None,
    }
}

/// The list that was given, or the one that was read back.
fn met<'a>(call: &'a Call, outcome: &'a Outcome) -> Option<&'a [u8]> {
    match outcome {
        Outcome::ReadBack(Ok(answer), out) => out.get(..answer.length as usize),
        _ => given(call),
    }
}

/// Where the lists of a room that was handed in have them.
pub fn count_in_a_room(report: &mut Report, found: &Found) {
    let has_some = |list: &Option<Vec<u8>>| list.as_ref().is_some_and(|l| spare_bytes(l) > 0);
    let kept = |step: &Step| match step {
        Step::Add => false,
        Step::Other { before, .. } => has_some(&before.own_list),
    };
    let own = |number: usize| has_some(&found.objects[number].own_list);
    let met = [
        (
            "a room with spare bytes in a computed list",
            found.lists.iter().any(has_some),
        ),
        (
            "a room with spare bytes in an own list",
            (0..found.objects.len()).any(own),
        ),
        (
            "a room with spare bytes in a kept step",
            found.steps.iter().any(kept),
        ),
        (
            "a room with spare bytes in the default list",
            has_some(&found.settings.default_list),
        ),
    ];
    for (what, _) in met.into_iter().filter(|&(_, yes)| yes) {
        report.add_room(what);
    }
}
