//! Bad lists and generic bits, each with all that would be refused later.

use super::make::{MOST_WANTED, READ, allow, deny, of_entries, of_list, person};
use crate::access::{MOST_HELD, Question};
use crate::cases::build::{EntryPlan, list_of, nt_sid};
use crate::cases::inherit::refusals::bad_lists;
use crate::cases::spoil::{Spoil, spoilt};

const GENERIC: [u32; 4] = [0x1000_0000, 0x2000_0000, 0x4000_0000, 0x8000_0000];

pub fn questions() -> Vec<Question> {
    let mut questions = lists();
    questions.extend(generic_bits());
    questions.extend(late_faults());
    questions
}

fn too_many() -> Vec<u8> {
    nt_sid(&[]).repeat(MOST_HELD + 1)
}

/// Each with good held bytes, with bad ones, with too many, with nothing
/// wanted, with a generic bit wanted, and absent.
fn lists() -> Vec<Question> {
    let mut questions = Vec::new();
    for (turn, list) in bad_lists().into_iter().enumerate() {
        let question = of_list(list, READ);
        let generic = GENERIC[turn % 4];
        questions.extend([
            question.clone().with_held(person()[..11].to_vec()),
            question.clone().with_held(too_many()),
            question.clone().wanting(0),
            question.clone().wanting(generic),
            question.clone().without_list(),
            question,
        ]);
    }
    questions
}

/// Alone, together and with others, whatever else is wrong.
fn generic_bits() -> Vec<Question> {
    let bad = list_of(2, &[spoilt(&allow(READ), &[Spoil::Type(7)])]);
    let good = of_entries(&[allow(u32::MAX)], 0);
    let empty = of_entries(&[], 0);
    let subjects = [
        good.clone(),
        of_entries(&[deny(u32::MAX)], 0),
        good.clone().with_held(vec![1]),
        good.clone().with_held(too_many()),
        good.clone().without_list(),
        good.without_list().with_held(vec![1]),
        empty.clone().without_list().with_held(too_many()),
        empty,
        of_list(bad.clone(), 0),
        of_list(bad, 0).with_held(vec![1]),
        of_list(Vec::new(), 0),
    ];
    let masks = GENERIC.into_iter().flat_map(|bit| [bit, bit | READ]);
    let masks: Vec<u32> = masks.chain([0xF000_0000, u32::MAX, !READ]).collect();
    let mut questions = Vec::new();
    for subject in subjects {
        questions.extend(masks.iter().map(|&wanted| subject.clone().wanting(wanted)));
    }
    questions
}

/// The first entry alone would answer, but the list is read to its end.
fn late_faults() -> Vec<Question> {
    let plan = EntryPlan::plain(0, 0, person());
    let ways = [
        Spoil::SizeField(0xFFFF),
        Spoil::Type(2),
        Spoil::Type(5),
        Spoil::Flags(0x80),
        Spoil::SizeField(7),
        Spoil::SidRevision(0),
        Spoil::SidCount(16),
        Spoil::SidCount(0),
    ];
    let mut questions = Vec::new();
    for first in [allow(MOST_WANTED), deny(MOST_WANTED)] {
        for way in ways {
            let entries = [first.bytes(), plan.bytes(), spoilt(&plan, &[way])];
            for wanted in [0, READ] {
                questions.push(of_list(list_of(2, &entries), wanted));
            }
        }
    }
    questions
}
