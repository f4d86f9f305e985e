//! Computations with lists that have spare bytes.

use crate::report::Report;
use second::ace::{CONTAINER_INHERIT, OBJECT_INHERIT};
use second::cases::build::{with_count, without_spare};
use second::computing::{Request, WhichList};
use second::list::{List, spare_bytes};

/// The same question with the spare bytes taken off, where there are some.
pub fn without(request: &Request) -> Option<Request> {
    has_some(request).then(|| Request {
        parent: without_spare(&request.parent),
        creator: without_spare(&request.creator),
        default_list: without_spare(&request.default_list),
        ..request.clone()
    })
}

fn has_some(request: &Request) -> bool {
    let mut lists = WhichList::ALL.map(|which| request.list(which)).into_iter();
    lists.any(|list| list.is_some_and(|list| spare_bytes(list) > 0))
}

/// A request that has some, by the second program's number.
pub fn count(report: &mut Report, request: &Request, number: u32) {
    report.add_branch("asked again without spare bytes");
    match number {
        0 => report.add_branch("computed with spare bytes"),
        8 => return report.add_branch("8 with spare bytes"),
        _ => return,
    }
    let names = [
        "spare bytes of the parent",
        "spare bytes of the creator",
        "spare bytes of the default",
    ];
    for (which, name) in WhichList::ALL.into_iter().zip(names) {
        let list = request.list(which).unwrap_or_default();
        let spare = spare_bytes(list);
        if spare > 0 {
            report.add_branch(name);
            report.reach("most spare bytes", spare);
            report.reach("longest list with spare bytes", list.len());
        }
    }
    if request
        .list(WhichList::Parent)
        .is_some_and(hides_a_heritage)
    {
        report.add_branch("a hidden entry that would be inherited");
    }
}

/// Whether the entry behind those that are counted is inheritable.
fn hides_a_heritage(parent: &[u8]) -> bool {
    let Ok(shown) = List::parse(parent) else {
        return false;
    };
    let another = with_count(parent, shown.entries.len() + 1);
    let hidden = List::parse(&another).ok();
    let flags = hidden.and_then(|list| list.entries.last().map(|entry| entry.flags));
    flags.is_some_and(|flags| flags & (OBJECT_INHERIT | CONTAINER_INHERIT) != 0)
}
