//! Every type with every object word, under all flags or some.

use super::make::{READ, allow, of_entries, of_type};
use crate::access::Question;
use crate::cases::build::{EntryPlan, SHAPES};

/// With IO and without it.
const SOME_FLAGS: [u8; 8] = [0x00, 0x07, 0x10, 0x17, 0x08, 0x0F, 0x18, 0x1F];

pub fn questions() -> Vec<Question> {
    let mut questions = Vec::new();
    for (entry_type, word) in SHAPES {
        let all_flags = entry_type < 5 || word == 1;
        let flags = match all_flags {
            true => (0..0x20).collect(),
            false => SOME_FLAGS.to_vec(),
        };
        questions.extend(flags.iter().map(|&flags| question(entry_type, word, flags)));
    }
    questions
}

/// What denies stands before an entry that would grant the bit.
fn question(entry_type: u8, word: u32, flags: u8) -> Question {
    let plan = EntryPlan {
        flags,
        word,
        ..of_type(entry_type, READ)
    };
    match entry_type {
        0 | 5 => of_entries(&[plan], READ),
        _ => of_entries(&[plan, allow(READ)], READ),
    }
}
