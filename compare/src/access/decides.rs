//! What an answer hangs on: the second program is asked again with one thing
//! changed.

use second::access::{Question, held_sids, try_may_open_with};
use second::ace::{Ace, INHERIT_ONLY};
use second::cases::build::{list_of, with_count};
use second::list::{Entry, EntryType, List};

/// Names for the report, of a question that is answered with this yes or no.
pub fn what_decides(question: &Question, table: &[u8], is_yes: bool) -> Vec<&'static str> {
    let Some(list) = question.present_list() else {
        return Vec::new();
    };
    let of_list = |list: Vec<u8>| Question {
        list,
        ..question.clone()
    };
    let other_type = question.object_type.map(|byte| !byte);
    let changed = [
        ("IO decides", of_list(without_inherit_only(list))),
        ("the order decides", of_list(in_reverse(list))),
        ("a condition decides", of_list(without_conditions(list))),
        (
            "a spare entry would decide",
            of_list(showing_one_more(list)),
        ),
        (
            "the object type decides",
            question.clone().of_object_type(other_type),
        ),
        (
            "the last SID held decides",
            question.clone().with_held(all_but_the_last(&question.held)),
        ),
    ];
    let otherwise = |question: &Question, table: &[u8]| {
        let answered = try_may_open_with(question, table);
        answered.is_ok_and(|verdict| verdict.is_yes() != is_yes)
    };
    let decides = changed
        .into_iter()
        .filter(|(_, changed)| otherwise(changed, table));
    let mut names: Vec<&'static str> = decides.map(|(name, _)| name).collect();
    if otherwise(question, &[]) {
        names.push("the table decides");
    }
    names
}

fn parsed(list: &[u8]) -> List<'_> {
    List::parse(list).expect("the question was answered")
}

fn without_inherit_only(list: &[u8]) -> Vec<u8> {
    let mut changed = list.to_vec();
    for entry in parsed(list).entries {
        changed[entry.offset + 1] &= !INHERIT_ONLY;
    }
    changed
}

/// Types 00 and 01 in their place.
fn without_conditions(list: &[u8]) -> Vec<u8> {
    let plain = |entry: &Entry| {
        let entry_type = match entry.entry_type {
            EntryType::ConditionalAllow => EntryType::Allow,
            EntryType::ConditionalDeny => EntryType::Deny,
            other => other,
        };
        let ace = Ace {
            entry_type,
            expression: Vec::new(),
            ..Ace::from(entry)
        };
        ace.bytes()
    };
    let entries: Vec<Vec<u8>> = parsed(list).entries.iter().map(plain).collect();
    list_of(list[0], &entries)
}

fn in_reverse(list: &[u8]) -> Vec<u8> {
    let entries = parsed(list).entries.into_iter().rev();
    let entries: Vec<Vec<u8>> = entries.map(|entry| entry.bytes.to_vec()).collect();
    list_of(list[0], &entries)
}

fn showing_one_more(list: &[u8]) -> Vec<u8> {
    with_count(list, parsed(list).entries.len() + 1)
}

fn all_but_the_last(held: &[u8]) -> Vec<u8> {
    let mut sids = held_sids(held).expect("the question was answered");
    sids.pop();
    sids.concat()
}
