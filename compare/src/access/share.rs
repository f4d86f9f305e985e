//! Questions whose parts are the same bytes, so that one range can be lent for
//! several of them.

use crate::capi::lending::{Lending, Shared};
use crate::report::Report;
use second::access::Question;
use second::list::{Entry, List};
use second::random::Random;

/// What is held, the type or both stand in the list, if it has them.
pub fn share(random: &mut Random, question: &mut Question) {
    let list = question.list.clone();
    let Ok(parsed) = List::parse(&list) else {
        return;
    };
    if !parsed.entries.is_empty() && random.chance(2, 3) {
        question.held = random.pick(&parsed.entries).sid.to_vec();
    }
    let guids: Vec<_> = parsed.entries.iter().flat_map(guids).collect();
    if !guids.is_empty() {
        question.object_type = **random.pick(&guids);
    }
}

fn guids<'a>(entry: &Entry<'a>) -> impl Iterator<Item = &'a second::list::Guid> {
    let both = [entry.object_type, entry.inherited_object_type];
    both.into_iter().flatten()
}

/// The parts that a call reads.
pub fn parts<'a>(question: &'a Question, table: &'a [u8]) -> [&'a [u8]; 4] {
    [&question.list, &question.object_type, &question.held, table]
}

/// By a list that is looked at.
pub fn count_shared(report: &mut Report, lending: &Lending, question: &Question) {
    let Some(list) = question.present_list() else {
        return;
    };
    let in_the_list = |part: &[u8]| lending.shared(list, part) != Shared::Nothing;
    let found = [
        ("what is held in the list", in_the_list(&question.held)),
        ("the type in the list", in_the_list(&question.object_type)),
    ];
    for (what, _) in found.into_iter().filter(|&(_, yes)| yes) {
        report.add_branch(what);
    }
}
