//! Reading lists and identities.

pub mod generate;

use crate::capi::{self, WhenEmpty};
use crate::floors;
use crate::report::Report;
use generate::Subject;
use second::cases::build::with_count;
use second::list::{List, has_conditions, spare_bytes};
use second::random::Random;
use second::{hex, identity, reading};

/// Elements before and after the row that nobody may touch.
const MARGIN: usize = 4;
/// Longer lists are counted by themselves, and told by their length.
const LONG: usize = 16_384;

pub fn compare(cases: usize, seed: u64) -> Report {
    let mut random = Random::new(seed);
    let mut report = Report::new("list", &floors::LIST);
    for _ in 0..cases {
        match generate::subject(&mut random) {
            Subject::List { list, row_length } => {
                compare_read(&mut random, &mut report, &list, row_length)
            }
            Subject::Identity(bytes) => compare_identity(&mut random, &mut report, &bytes),
        }
    }
    report
}

fn compare_identity(random: &mut Random, report: &mut Report, bytes: &[u8]) {
    let lent = bytes.to_vec();
    let theirs = capi::identity(&lent, WhenEmpty::draw(random));
    let ours = identity::classify(bytes);
    let difference = if theirs != ours {
        Some(format!("{theirs}, second {ours}"))
    } else if lent != bytes {
        Some("the bytes were changed".to_string())
    } else {
        None
    };
    let told = difference.map(|what| format!("identity {}: {what}", hex::encode(bytes)));
    report.add("identity", ours, told);
}

fn compare_read(random: &mut Random, report: &mut Report, list: &[u8], row_length: usize) {
    let before = random_numbers(random, row_length + 2 * MARGIN);
    let inside = MARGIN..MARGIN + row_length;

    let mut our_row = before.clone();
    let ours = reading::read(list, &mut our_row[inside.clone()]).eight();

    let lent = list.to_vec();
    let mut their_row = before;
    let mut theirs = [0; 8].map(|_: u32| random.word());
    let empty = WhenEmpty::draw(random);
    capi::read(&lent, &mut their_row[inside], &mut theirs, empty);

    let difference = if theirs != ours {
        Some(format!("{theirs:?}, second {ours:?}"))
    } else if their_row != our_row {
        Some(row_difference(&their_row, &our_row))
    } else if lent != list {
        Some("the list was changed".to_string())
    } else {
        None
    };
    let told = difference.map(|what| {
        let list = told(list);
        format!("read row {row_length} list {list}: {what}")
    });
    count_spare_bytes(report, list, &ours);
    if ours[0] == 0 && has_conditions(list) {
        report.add_branch("read with a condition");
    }
    if list.len() > LONG {
        report.add_call("read of a long list", ours[0]);
        report.reach("longest list that was read", ours[3] as usize);
        report.reach("most entries of a list", ours[5] as usize);
        report.reach("latest offset of a refusal", ours[2] as usize);
    }
    report.add("read", ours[0], told);
}

/// By the second program's numbers.
fn count_spare_bytes(report: &mut Report, list: &[u8], ours: &[u32; 8]) {
    let &[number, _, _, length, _, count, _, end] = ours;
    if number == 8 && spare_bytes(list) > 0 {
        report.add_branch("a row too short with spare bytes");
    }
    if number != 0 || end == length {
        return;
    }
    report.reach("most spare bytes", (length - end) as usize);
    let another = with_count(list, count as usize + 1);
    let found = [
        ("read with spare bytes", true),
        ("spare bytes behind no entry", count == 0),
        (
            "spare bytes that are an entry",
            List::parse(&another).is_ok(),
        ),
        ("read of 65,533 bytes or more", length > 65_532),
    ];
    for (what, _) in found.into_iter().filter(|&(_, yes)| yes) {
        report.add_branch(what);
    }
}

fn told(list: &[u8]) -> String {
    if list.len() > LONG {
        return format!("of {} bytes", list.len());
    }
    hex::encode(list)
}

fn random_numbers(random: &mut Random, length: usize) -> Vec<u16> {
    (0..length).map(|_| random.word() as u16).collect()
}

/// Names the first element that differs; those of the margin are outside.
fn row_difference(theirs: &[u16], ours: &[u16]) -> String {
    let at = theirs.iter().zip(ours).take_while(|(a, b)| a == b).count();
    let place = at as isize - MARGIN as isize;
    format!("row element {place} is {}, second {}", theirs[at], ours[at])
}
