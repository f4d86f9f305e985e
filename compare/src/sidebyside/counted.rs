//! What the cases had, for the report.

use super::generate::Subject;
use crate::capi::lending::{Lending, Shared};
use crate::report::Report;
use second::list::{List, spare_bytes};
use second::sidebyside::{Compared, FEW, Lists, MOST_ENTRIES, Refused, Which, ties};

fn add_all(report: &mut Report, found: &[(&'static str, bool)]) {
    for (what, _) in found.iter().filter(|(_, yes)| *yes) {
        report.add_branch(what);
    }
}

fn parsed(list: &[u8]) -> List<'_> {
    List::parse(list).expect("the lists were compared")
}

pub fn compared(report: &mut Report, subject: &Subject, compared: &Compared) {
    let (first, second) = &subject.lists;
    let [ones, others] = [first, second].map(|list| parsed(list).entries);
    let most = ones.len().max(others.len());
    let numbers = compared.removed.len() + compared.added.len();
    report.add_branch(compared.name());
    for tie in ties(first, second) {
        report.add_branch(tie.name());
    }
    let kept = |kind: fn(&second::list::Entry) -> bool| {
        let mut kept = compared.kept.iter().map(|&(one, _)| &ones[one]);
        kept.any(kind)
    };
    let both = [first, second].map(|list| spare_bytes(list));
    add_all(
        report,
        &[
            ("headers differ", compared.headers_differ),
            ("spare bytes differ", compared.spare_bytes_differ),
            (
                "spare bytes differ, and headers don't",
                compared.spare_bytes_differ && !compared.headers_differ,
            ),
            (
                "the same spare bytes",
                both[0] > 0 && !compared.spare_bytes_differ,
            ),
            ("every choice of entries tried", most <= FEW),
            ("more entries than that", most > FEW),
            ("128 entries in the first", ones.len() == MOST_ENTRIES),
            ("128 entries in the second", others.len() == MOST_ENTRIES),
            (
                "an object entry is kept",
                kept(|entry| entry.entry_type.is_object()),
            ),
            (
                "a conditional entry is kept",
                kept(|entry| entry.entry_type.is_conditional()),
            ),
            ("the row is exact", subject.row_length == numbers),
        ],
    );
    report.reach("longest list", first.len().max(second.len()));
    report.reach("most spare bytes", both[0].max(both[1]));
    report.reach("most entries of the first list", ones.len());
    report.reach("most entries of the second list", others.len());
    report.reach("most kept", compared.kept.len());
    report.reach("most removed", compared.removed.len());
    report.reach("most added", compared.added.len());
}

/// What else would have been refused, later.
pub fn refused(report: &mut Report, subject: &Subject, refused: Refused) {
    let (first, second) = &subject.lists;
    let is_bad = List::parse(second).is_err();
    let are_many = [first, second].map(|list| List::parse(list).is_ok_and(|list| is_over(&list)));
    match refused {
        Refused::List(which, refusal) => {
            let call = which.name();
            report.add_call(call, refusal.fault.number());
            report.reach("latest offset of a refusal", refusal.offset);
            let is_first = which == Which::First;
            add_all(
                report,
                &[
                    ("the first of two bad lists", is_first && is_bad),
                    ("a bad list before 22", are_many[0] || are_many[1]),
                ],
            );
        }
        Refused::TooManyEntries => add_all(
            report,
            &[
                ("22 by the first alone", are_many[0] && !are_many[1]),
                ("22 by the second alone", are_many[1] && !are_many[0]),
                ("22 by both", are_many[0] && are_many[1]),
                ("22 before 8", subject.row_length == 0),
                ("22 by one too many", has_one_too_many(&subject.lists)),
            ],
        ),
        Refused::RowTooShort => add_all(report, &[("8 without a row", subject.row_length == 0)]),
    }
}

fn is_over(list: &List) -> bool {
    list.entries.len() > MOST_ENTRIES
}

fn has_one_too_many((first, second): &Lists) -> bool {
    let counts = [first, second].map(|list| parsed(list).entries.len());
    counts[0].max(counts[1]) == MOST_ENTRIES + 1
}

pub fn shared(report: &mut Report, lending: &Lending, (first, second): &Lists) {
    match lending.shared(first, second) {
        Shared::Nothing => {}
        Shared::Whole => report.add_branch("one range for both lists"),
        Shared::Part => report.add_branch("a list in the other"),
    }
}
