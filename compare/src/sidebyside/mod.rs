//! Comparing two lists.

mod again;
mod applied;
mod counted;
mod generate;

use crate::capi;
use crate::capi::WhenEmpty;
use crate::capi::lending::Lending;
use crate::floors;
use crate::report::Report;
use crate::watched::Watched;
use applied::Given;
use generate::Subject;
use second::cases::sidebyside::make::case;
use second::hex;
use second::random::Random;
use second::records::encode_all;
use second::sidebyside::{self, Lists, try_compare};

/// Elements before and after the row that nobody may touch.
const MARGIN: usize = 4;
/// Longer cases are told by their lengths.
const LONGEST_TOLD: usize = 6_000;

pub fn compare(cases: usize, seed: u64) -> Report {
    let mut random = Random::new(seed);
    let mut report = Report::new("sidebyside", &floors::SIDEBYSIDE);
    for _ in 0..cases {
        let subject = generate::subject(&mut random);
        compare_one(&mut random, &mut report, &subject);
    }
    report
}

fn compare_one(random: &mut Random, report: &mut Report, subject: &Subject) {
    let (first, second) = &subject.lists;
    let row_length = subject.row_length;
    let before: Vec<u32> = (0..row_length + 2 * MARGIN)
        .map(|_| random.word())
        .collect();
    let inside = MARGIN..MARGIN + row_length;

    let mut our_row = before.clone();
    let outcome = try_compare(first, second, &mut before.clone()[inside.clone()]);
    let ours = sidebyside::compare(first, second, &mut our_row[inside.clone()]);

    let lent = subject.lists.clone();
    let lending = lending(random, &lent, subject.together);
    let mut their_row = before;
    let mut answer = Watched::draw(random);
    capi::sidebyside::compare(
        &lent.0,
        &lent.1,
        &mut their_row[inside.clone()],
        answer.lent(),
        &lending,
    );
    let theirs = answer.numbers();

    let difference = if theirs != ours {
        Some(format!("{theirs:?}, second {ours:?}"))
    } else if !answer.margins_are_unchanged() {
        Some("what stands about the answer was changed".to_string())
    } else if their_row != our_row {
        Some(row_difference(&their_row, &our_row))
    } else if lent != subject.lists || !lending.is_unchanged() {
        Some("a list was changed".to_string())
    } else {
        let row = &their_row[inside];
        of_itself(random, report, &subject.lists, row, &theirs)
    };
    counted::shared(report, &lending, &lent);
    match &outcome {
        Ok(compared) => counted::compared(report, subject, compared),
        Err(refused) => counted::refused(report, subject, *refused),
    }
    let told = difference.map(|what| format!("compare {}: {what}", told(subject)));
    report.add("compare", ours[0], told);
}

/// What the library's answer has to be, whatever the second program says.
fn of_itself(
    random: &mut Random,
    report: &mut Report,
    lists: &Lists,
    row: &[u32],
    answer: &[u32; 8],
) -> Option<String> {
    let swapped = again::swapped_difference(random, report, lists, row.len(), answer);
    if swapped.is_some() || answer[0] != 0 {
        return swapped;
    }
    let given = Given::new(&lists.0, &lists.1, answer, row);
    given
        .difference(report)
        .or_else(|| again::behind_difference(random, report, lists, &given))
}

fn lending(random: &mut Random, (first, second): &Lists, together: bool) -> Lending {
    let when_empty = WhenEmpty::draw(random);
    match together {
        true => Lending::together(when_empty, &[first, second], None),
        false => Lending::apart(when_empty),
    }
}

/// Names the first element that differs; those of the margin are outside.
fn row_difference(theirs: &[u32], ours: &[u32]) -> String {
    let at = theirs.iter().zip(ours).take_while(|(a, b)| a == b).count();
    let place = at as isize - MARGIN as isize;
    format!("row element {place} is {}, second {}", theirs[at], ours[at])
}

/// The case as a record of the case file, so that it can be tried again; a long
/// one by its length.
fn told(subject: &Subject) -> String {
    let (first, second) = &subject.lists;
    let length = first.len() + second.len();
    match length {
        0..=LONGEST_TOLD => hex::encode(&encode_all(&[case(&subject.lists, subject.row_length)])),
        _ => format!("of {length} bytes"),
    }
}
