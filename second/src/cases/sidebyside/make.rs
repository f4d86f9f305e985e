//! Lists as words, a letter for each entry, and the cases of two lists.

use crate::cases::build::{EntryPlan, list_of, nt_sid};
use crate::records::Case;
use crate::sidebyside::{Lists, MOST_ENTRIES, try_compare};

/// Of the row, in turn: behind the numbers, and where there are none.
const BEHIND: [usize; 4] = [0, 1, 0, 4];
const WITHOUT_NUMBERS: [usize; 4] = [3, 0, 5, 1];

/// An allow, a deny and an allow for a longer SID, then allows by their masks.
pub fn entry(letter: char) -> Vec<u8> {
    match letter {
        'a' => plan(0, 1).bytes(),
        'b' => plan(1, 1).bytes(),
        'c' => plan(0, 1).naming(nt_sid(&[18])).bytes(),
        _ => numbered(u32::from(letter)),
    }
}

/// An entry of 16 bytes, another for each number.
pub fn numbered(number: u32) -> Vec<u8> {
    plan(0, number << 4).bytes()
}

/// For S-1-5, without flags.
fn plan(entry_type: u8, mask: u32) -> EntryPlan {
    EntryPlan {
        mask,
        ..EntryPlan::plain(entry_type, 0, nt_sid(&[]))
    }
}

pub fn entries(word: &str) -> Vec<Vec<u8>> {
    word.chars().map(entry).collect()
}

pub fn list(word: &str) -> Vec<u8> {
    list_of(2, &entries(word))
}

pub fn lists(first: &str, second: &str) -> Lists {
    (list(first), list(second))
}

pub fn case(lists: &Lists, row_length: usize) -> Case {
    Case::Compare {
        lists: lists.clone(),
        row_length: row_length as u16,
    }
}

/// With rows that hold the numbers.
pub fn fitting(pairs: impl IntoIterator<Item = Lists>) -> Vec<Case> {
    let mut cases = Vec::new();
    for (turn, lists) in pairs.into_iter().enumerate() {
        let turn = turn % BEHIND.len();
        let row_length = match needed(&lists) {
            Some(needed) => needed + BEHIND[turn],
            None => WITHOUT_NUMBERS[turn],
        };
        cases.push(case(&lists, row_length));
    }
    cases
}

/// How many elements the row has to have; `None` where the lists aren't
/// compared.
pub fn needed((first, second): &Lists) -> Option<usize> {
    let compared = try_compare(first, second, &mut [0; 2 * MOST_ENTRIES]).ok()?;
    Some(compared.removed.len() + compared.added.len())
}

/// Either as the first.
pub fn both_ways(lists: Lists) -> [Lists; 2] {
    let (first, second) = lists.clone();
    [lists, (second, first)]
}
