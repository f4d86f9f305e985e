//! Single steps, and lists walked whole.

use super::told;
use crate::capi;
use crate::capi::WhenEmpty;
use crate::capi::lending::Lending;
use crate::report::Report;
use crate::watched::Watched;
use second::list::{List, spare_bytes};
use second::random::Random;
use second::records::Case;

pub fn compare_step(random: &mut Random, report: &mut Report, list: &[u8], place: u32) {
    let step = Step::both_ways(random, list, place);
    count_step(report, list, place, &step);
    report.add("step", step.answer[0], step.difference);
}

/// From place to place until none is left; each entry is met, in its turn.
pub fn compare_walk(random: &mut Random, report: &mut Report, list: &[u8]) {
    let mut met = Vec::new();
    let mut place = 0;
    let difference = loop {
        let step = Step::both_ways(random, list, place);
        let none_is_left = step.answer[4] == 0;
        if step.difference.is_some() || none_is_left {
            break step.difference;
        }
        met.push(step.answer[3] as usize);
        // As the library gives it: both gave the same.
        place = step.entry[7];
    };
    let is_whole = difference.is_some() || met == offsets(list);
    assert!(is_whole, "the second program's walk passes an entry over");
    report.reach("most steps of a walk", met.len());
    report.add("walk", 0, difference);
}

fn offsets(list: &[u8]) -> Vec<usize> {
    let parsed = List::parse(list).expect("a list that is walked is good");
    parsed.entries.iter().map(|entry| entry.offset).collect()
}

/// What the second program gives, and how the library differs.
struct Step {
    answer: [u32; 8],
    entry: [u32; 8],
    difference: Option<String>,
}

impl Step {
    fn both_ways(random: &mut Random, list: &[u8], place: u32) -> Step {
        let (answer, entry) = second::access::step(list, place);
        let lent = list.to_vec();
        let lending = Lending::apart(WhenEmpty::draw(random));
        let mut their_answer = Watched::draw(random);
        let mut their_entry = Watched::draw(random);
        capi::access::step(
            &lent,
            place,
            their_entry.lent(),
            their_answer.lent(),
            &lending,
        );
        let (theirs, theirs_of_entry) = (their_answer.numbers(), their_entry.numbers());
        let difference = if theirs != answer {
            Some(format!("{theirs:?}, second {answer:?}"))
        } else if theirs_of_entry != entry {
            Some(format!("entry {theirs_of_entry:?}, second {entry:?}"))
        } else if ![their_answer, their_entry]
            .iter()
            .all(Watched::margins_are_unchanged)
        {
            Some("what stands about answer or entry was changed".to_string())
        } else if lent != list {
            Some("the list was changed".to_string())
        } else {
            None
        };
        let difference = difference.map(|what| {
            let case = Case::Step { list: lent, place };
            format!("step {}: {what}", told(case, list.len()))
        });
        Step {
            answer,
            entry,
            difference,
        }
    }
}

fn count_step(report: &mut Report, list: &[u8], place: u32, step: &Step) {
    let &[number, _, offset, begin, is_there, ..] = &step.answer;
    let place = place as usize;
    if number != 0 {
        report.reach("latest offset of a refused step", offset as usize);
        return;
    }
    let spare = spare_bytes(list);
    let in_spare_bytes = (list.len() - spare..list.len()).contains(&place);
    let found = [
        ("a step to an entry", is_there == 1),
        ("a step to where none is left", is_there == 0),
        (
            "a step from within an entry",
            is_there == 1 && 8 < place && place < begin as usize,
        ),
        ("a step to an object entry", matches!(step.entry[0], 5 | 6)),
        ("a step to a conditional entry", step.entry[0] >= 9),
        ("a step from spare bytes", in_spare_bytes),
        ("a step past 65,535", place > 0xFFFF),
    ];
    for (what, _) in found.into_iter().filter(|&(_, yes)| yes) {
        report.add_branch(what);
    }
    report.reach("latest entry of a step", begin as usize);
}
