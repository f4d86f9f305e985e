//! Masks that ask for generic bits, and what a list computed by rule 2 hangs
//! on: the second program is asked again with another mapping.

use crate::mended::{self, has_full_control, other_where_it_brings_in};
use crate::report::Report;
use second::ace::INHERIT_ONLY;
use second::cases::inherit::fresh::{generic_mask, telling_mapping};
use second::computing::{self, Branch, Request};
use second::list::List;
use second::random::Random;

/// In lists that are good, most of the masks; and the mapping.
pub fn ask_for_generic_bits(random: &mut Random, request: &mut Request) {
    for list in [
        &mut request.parent,
        &mut request.creator,
        &mut request.default_list,
    ] {
        for at in offsets(list) {
            if random.chance(7, 8) {
                let mask = generic_mask(random);
                list[at + 4..at + 8].copy_from_slice(&mask.to_le_bytes());
            }
        }
    }
    if random.chance(3, 4) {
        request.mapping = telling_mapping(random);
    }
}

fn offsets(list: &[u8]) -> Vec<usize> {
    let entries = List::parse(list).map_or(Vec::new(), |list| list.entries);
    entries.iter().map(|entry| entry.offset).collect()
}

/// By the second program's list. Where by rule 2 some mask of it hangs on
/// 10000000, gives what the list would be if "all" mapped to nothing.
pub fn count(
    report: &mut Report,
    request: &Request,
    branch: Branch,
    list: &[u8],
) -> Option<Vec<u8>> {
    if request.rule != mended::RULE {
        if has_full_control(list) {
            report.add_branch("by rule 1, 10000000 stays");
        }
        return None;
    }
    let [read, write, execute, all] = request.mapping;
    let others = [
        ("by rule 2, 80000000 decides", [0, write, execute, all]),
        ("by rule 2, 40000000 decides", [read, 0, execute, all]),
        ("by rule 2, 20000000 decides", [read, write, 0, all]),
        (
            "by rule 2, a generic bit brought in",
            request.mapping.map(other_where_it_brings_in),
        ),
    ];
    for (name, mapping) in others {
        if mapping != request.mapping && mapped(request, mapping, list.len()) != list {
            report.add_branch(name);
        }
    }
    let without = mapped(request, [read, write, execute, 0], list.len());
    if without == list {
        return None;
    }
    count_full_control(report, branch, list, &without);
    Some(without)
}

/// The list with another mapping: it is as long.
fn mapped(request: &Request, mapping: [u32; 4], length: usize) -> Vec<u8> {
    let mut list = vec![0; length];
    let request = Request {
        mapping,
        ..request.clone()
    };
    computing::compute(&request, &mut list);
    list
}

fn count_full_control(report: &mut Report, branch: Branch, list: &[u8], without: &[u8]) {
    report.add_branch(match branch {
        Branch::ParentAlone => "by rule 2, 10000000 decides in row 1",
        Branch::CreatorByRule1 => unreachable!("rule 2 has a row of its own"),
        Branch::CreatorByRule2 => "by rule 2, 10000000 decides in row 3",
        Branch::DefaultList => "by rule 2, 10000000 decides in row 4",
        Branch::OwnEntries => "by rule 2, 10000000 decides in row 5",
    });
    let parsed = List::parse(list).expect("it was computed");
    let changed = |at: usize| list[at..at + 8] != without[at..at + 8];
    let of_entries = |of_kind: fn(u8, u8) -> bool| {
        let mut entries = parsed.entries.iter();
        entries.any(|entry| of_kind(entry.bytes[0], entry.flags) && changed(entry.offset))
    };
    let found = [
        (
            "by rule 2, 10000000 decides in an IO entry",
            of_entries(|_, flags| flags & INHERIT_ONLY != 0),
        ),
        (
            "by rule 2, 10000000 decides in an object entry",
            of_entries(|entry_type, _| matches!(entry_type, 5 | 6)),
        ),
    ];
    for (what, _) in found.into_iter().filter(|&(_, yes)| yes) {
        report.add_branch(what);
    }
}
