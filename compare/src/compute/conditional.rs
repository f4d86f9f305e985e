//! What is counted of conditional entries in a list that was computed.

use crate::report::Report;
use second::computing::Request;
use second::list::{EntryType, List};

/// Of a placeholder, which owner or group was put for.
const PLACEHOLDER: usize = 12;

pub fn count(report: &mut Report, request: &Request, list: &[u8]) {
    let entries = List::parse(list).map_or(Vec::new(), |list| list.entries);
    let of_type = |entry_type: EntryType| entries.iter().any(|e| e.entry_type == entry_type);
    let put_in = [&request.owner[..], &request.group];
    let found = [
        (
            "a conditional allow computed",
            of_type(EntryType::ConditionalAllow),
        ),
        (
            "a conditional deny computed",
            of_type(EntryType::ConditionalDeny),
        ),
        (
            "a SID of another length put before an expression",
            entries.iter().any(|entry| {
                let is_put_in = put_in.contains(&entry.sid) && entry.sid.len() != PLACEHOLDER;
                entry.condition.is_some() && is_put_in
            }),
        ),
    ];
    for (what, _) in found.into_iter().filter(|&(_, yes)| yes) {
        report.add_branch(what);
    }
}
