//! The object type asked for against the GUIDs of object entries.

use super::make::{READ, allow, asked_type, of_entries, of_type};
use crate::access::Question;
use crate::cases::build::{EntryPlan, counting_guid};
use crate::list::Guid;

pub fn questions() -> Vec<Question> {
    let mut questions = equal_or_not();
    questions.extend(near_matches());
    questions.extend(across_two_guids());
    questions.extend(zero_guids());
    questions.extend(orders());
    questions
}

fn object(entry_type: u8, word: u32, guids: [Guid; 2]) -> EntryPlan {
    EntryPlan {
        word,
        guids,
        ..of_type(entry_type, READ)
    }
}

/// The object allow by itself, and the object deny before an allow.
fn both_types(word: u32, guids: [Guid; 2]) -> [Question; 2] {
    [
        of_entries(&[object(5, word, guids)], READ),
        of_entries(&[object(6, word, guids), allow(READ)], READ),
    ]
}

/// Either GUID is the one asked for, or another; present or not.
fn equal_or_not() -> Vec<Question> {
    let other = counting_guid(0x70);
    let mut questions = Vec::new();
    for word in 0..4 {
        for first in [asked_type(), other] {
            for second in [asked_type(), other] {
                questions.extend(both_types(word, [first, second]));
            }
        }
    }
    questions
}

/// One bit differs, at each byte; or the bytes stand in another order. In
/// every other one the InheritedObjectType is the one asked for.
fn near_matches() -> Vec<Question> {
    let mut others = Vec::new();
    for place in 0..16 {
        for bit in [0x01, 0x80] {
            let mut changed = asked_type();
            changed[place] ^= bit;
            others.push(changed);
        }
    }
    let mut reversed = asked_type();
    reversed.reverse();
    let mut as_text = asked_type();
    as_text[..4].reverse();
    as_text[4..6].reverse();
    as_text[6..8].reverse();
    others.extend([reversed, as_text]);
    let words = [1, 3].into_iter().cycle();
    let near = others.into_iter().zip(words);
    near.flat_map(|(other, word)| both_types(word, [other, asked_type()]))
        .collect()
}

/// The type's bytes lie across ObjectType and InheritedObjectType: no match
/// but where they begin together.
fn across_two_guids() -> Vec<Question> {
    let across = |start: usize| {
        let mut both = [0xEE; 32];
        both[start..start + 16].copy_from_slice(&asked_type());
        let (guids, _) = both.as_chunks::<16>();
        both_types(3, [guids[0], guids[1]])
    };
    (0..=16).flat_map(across).collect()
}

/// A GUID that an entry doesn't have isn't one of zeros, and one of zeros is
/// a GUID like others.
fn zero_guids() -> Vec<Question> {
    let mut questions = Vec::new();
    for word in 0..4 {
        for guids in [[[0; 16]; 2], [asked_type(), [0; 16]]] {
            for asked in [[0; 16], asked_type()] {
                let of_type = |question: Question| question.of_object_type(asked);
                questions.extend(both_types(word, guids).map(of_type));
            }
        }
    }
    questions
}

/// Object entries and plain ones after each other.
fn orders() -> Vec<Question> {
    let other = counting_guid(0x70);
    let mut questions = Vec::new();
    for guid in [asked_type(), other] {
        for (object_type, plain_type) in [(5, 1), (6, 0), (5, 0), (6, 1)] {
            let object = object(object_type, 1, [guid; 2]);
            let plain = of_type(plain_type, READ);
            for plans in [[object.clone(), plain.clone()], [plain, object]] {
                questions.push(of_entries(&plans, READ));
            }
        }
    }
    questions
}
