//! Who may open, and the walk through a list.

mod decides;
mod generate;
mod share;
mod walk;

use crate::capi;
use crate::capi::WhenEmpty;
use crate::capi::lending::Lending;
use crate::floors;
use crate::report::Report;
use crate::watched::Watched;
use generate::Subject;
use second::access::{
    MOST_HELD, Question, Refused, Verdict, held_sids, may_open_with, truths, try_may_open_with,
};
use second::ace::GENERIC;
use second::cases::build::without_spare;
use second::condition::{Table, Truth};
use second::hex;
use second::list::{List, spare_bytes};
use second::random::Random;
use second::records::{Case, encode_all};

/// Longer cases are told by their lengths.
const LONGEST_TOLD: usize = 4_000;

pub fn compare(cases: usize, seed: u64) -> Report {
    let mut random = Random::new(seed);
    let mut report = Report::new("access", &floors::ACCESS);
    for _ in 0..cases {
        match generate::subject(&mut random) {
            Subject::Question {
                question,
                table,
                together,
            } => {
                compare_may_open(&mut random, &mut report, &question, &table, together);
            }
            Subject::Step { list, place } => {
                walk::compare_step(&mut random, &mut report, &list, place);
            }
            Subject::Walk(list) => walk::compare_walk(&mut random, &mut report, &list),
        }
    }
    report
}

/// With a table, or without one and then by either call.
fn compare_may_open(
    random: &mut Random,
    report: &mut Report,
    question: &Question,
    table: &[u8],
    together: bool,
) {
    let outcome = try_may_open_with(question, table);
    let ours = may_open_with(question, table);
    let (lent, lent_table) = (question.clone(), table.to_vec());
    let lending = lending(random, &lent, &lent_table, together);
    let mut answer = Watched::draw(random);
    match table {
        [] => capi::access::may_open(&lent, answer.lent(), &lending),
        _ => capi::access::may_open_with(&lent, &lent_table, answer.lent(), &lending),
    }
    let theirs = answer.numbers();
    let again = without_spare_bytes(question).map(|without| asked_apart(random, &without, table));
    let by_the_other_call = table.is_empty().then(|| asked_apart(random, question, &[]));

    let difference = if theirs != ours {
        Some(format!("{theirs:?}, second {ours:?}"))
    } else if !answer.margins_are_unchanged() {
        Some("what stands about the answer was changed".to_string())
    } else if lent != *question || lent_table != table || !lending.is_unchanged() {
        Some("an input was changed".to_string())
    } else if by_the_other_call.is_some_and(|other| other != theirs) {
        Some("with an empty table the library tells otherwise".to_string())
    } else if again.is_some_and(|again| again != theirs) {
        Some("without spare bytes the library tells otherwise".to_string())
    } else {
        None
    };
    share::count_shared(report, &lending, &lent);
    match outcome {
        Ok(verdict) => count_answered(report, question, table, verdict),
        Err(refused) => count_refused(report, question, table, refused),
    }
    let told = difference.map(|what| {
        let length = question.list.len() + question.held.len() + table.len();
        let case = Case::MayOpenWith {
            question: question.clone(),
            table: table.to_vec(),
        };
        format!("may open {}: {what}", told(case, length))
    });
    let call = match table {
        [] => "may open",
        _ => "may open with",
    };
    report.add(call, ours[0], told);
}

fn lending(random: &mut Random, lent: &Question, table: &[u8], together: bool) -> Lending {
    let when_empty = WhenEmpty::draw(random);
    match together {
        true => Lending::together(when_empty, &share::parts(lent, table), None),
        false => Lending::apart(when_empty),
    }
}

/// Where there are some.
fn without_spare_bytes(question: &Question) -> Option<Question> {
    let list = question.present_list()?;
    (spare_bytes(list) > 0).then(|| Question {
        list: without_spare(list),
        ..question.clone()
    })
}

fn asked_apart(random: &mut Random, question: &Question, table: &[u8]) -> [u32; 8] {
    let mut answer = [0; 8].map(|_: u32| random.word());
    let lending = Lending::apart(WhenEmpty::draw(random));
    capi::access::may_open_with(question, table, &mut answer, &lending);
    answer
}

fn count_answered(report: &mut Report, question: &Question, table: &[u8], verdict: Verdict) {
    report.add_branch(verdict.name());
    for what in decides::what_decides(question, table, verdict.is_yes()) {
        report.add_branch(what);
    }
    let held = held_sids(&question.held).expect("the question is answered");
    report.reach("most SIDs held", held.len());
    if held.len() == MOST_HELD {
        report.add_branch("32 SIDs held");
    }
    let Some(Ok(list)) = question.present_list().map(List::parse) else {
        return;
    };
    count_truths(report, &question.list, table);
    report.reach("longest list", question.list.len());
    report.reach("most entries of a list", list.entries.len());
    let spare = question.list.len() - list.end;
    if spare > 0 {
        report.add_branch("answered with spare bytes");
        report.reach("most spare bytes", spare);
    }
}

/// Of each conditional entry of a list.
fn count_truths(report: &mut Report, list: &[u8], table: &[u8]) {
    for (entry_type, truth) in truths(list, table) {
        report.add_branch(match (entry_type.is_allow(), truth) {
            (true, Truth::False) => "an allow that is false",
            (true, Truth::True) => "an allow that is true",
            (true, Truth::Unknown) => "an allow that is unknown",
            (false, Truth::False) => "a deny that is false",
            (false, Truth::True) => "a deny that is true",
            (false, Truth::Unknown) => "a deny that is unknown",
        });
    }
}

/// What else would have been refused, later or by the easy yes.
fn count_refused(report: &mut Report, question: &Question, table: &[u8], refused: Refused) {
    let held = held_sids(&question.held).map_or(usize::MAX, |sids| sids.len());
    let held_is_bad = held > MOST_HELD;
    let list_is_bad = question
        .present_list()
        .is_some_and(|list| List::parse(list).is_err());
    let is_absent = question.has_list == 0;
    let wants_nothing = question.wanted & !GENERIC == 0;
    let table_is_bad = Table::parse(table).is_err();
    let found = match refused {
        Refused::GenericWanted => [
            ("14 before a bad list", list_is_bad),
            ("14 before 6 or 7", held_is_bad),
            ("14 without a list", is_absent),
            ("14 before 23", table_is_bad),
        ],
        Refused::List(_) => [
            ("a bad list before 6 or 7", held_is_bad),
            ("a bad list with nothing wanted", wants_nothing),
            (
                "a bad list with another number for yes",
                question.has_list > 1,
            ),
            ("a bad list before 23", table_is_bad),
        ],
        Refused::HeldNotSids => [
            ("6 without a list", is_absent),
            ("6 with nothing wanted", wants_nothing),
            ("6 behind 33 SIDs", begins_with_too_many(&question.held)),
            ("6 before 23", table_is_bad),
        ],
        Refused::TooManyHeld => [
            ("7 without a list", is_absent),
            ("7 with nothing wanted", wants_nothing),
            ("7 by one too many", held == MOST_HELD + 1),
            ("7 before 23", table_is_bad),
        ],
        Refused::Table(_) => [
            ("23 without a list", is_absent),
            ("23 with nothing wanted", wants_nothing),
            ("23 with 32 SIDs held", held == MOST_HELD),
            (
                "23 without a conditional entry",
                truths(question.present_list().unwrap_or_default(), &[]).is_empty(),
            ),
        ],
    };
    for (what, _) in found.into_iter().filter(|&(_, yes)| yes) {
        report.add_branch(what);
    }
}

/// Whether more than 32 SIDs stand before what is none.
fn begins_with_too_many(held: &[u8]) -> bool {
    let ends = (0..held.len()).filter_map(|end| held_sids(&held[..end]).ok());
    ends.map(|sids| sids.len()).max() > Some(MOST_HELD)
}

/// The case as a record of the case file, so that it can be tried again; one
/// with so many bytes that it is long by its length.
fn told(case: Case, length: usize) -> String {
    match length {
        0..=LONGEST_TOLD => hex::encode(&encode_all(&[case])),
        _ => format!("of {length} bytes"),
    }
}
