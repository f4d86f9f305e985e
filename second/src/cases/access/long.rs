//! Many entries, many held SIDs, one list of the greatest length and one past
//! it.

use super::make::{MOST_WANTED, READ, allow, deny, of_entries, of_list, person, stranger};
use crate::access::{MOST_HELD, Question};
use crate::ace::LONGEST_LIST;
use crate::cases::build::{EntryPlan, nt_sid};
use crate::cases::tree::make::entries_of;
use crate::list::HEADER_LENGTH;

pub fn questions() -> Vec<Question> {
    let mut questions = last_of_many();
    questions.extend(a_bit_each());
    questions.push(longest());
    questions.push(past_the_greatest_length());
    questions
}

/// A domain's accounts.
fn account(number: u32) -> Vec<u8> {
    nt_sid(&[21, 1, 2, 3, number])
}

/// The last entry's SID is the last one held, and no other.
fn last_of_many() -> Vec<Question> {
    let mut questions = Vec::new();
    for (entries, held) in [(16, 8), (60, MOST_HELD)] {
        let plans: Vec<EntryPlan> = (0..entries)
            .map(|number| allow(READ).naming(account(number)))
            .collect();
        let mut sids: Vec<Vec<u8>> = (0..held as u32)
            .map(|number| account(1_000 + number))
            .collect();
        questions.push(of_entries(&plans, READ).holding(&sids));
        sids[held - 1] = account(entries - 1);
        questions.push(of_entries(&plans, READ).holding(&sids));
        let mut denied = plans;
        denied[entries as usize - 1].entry_type = 1;
        questions.push(of_entries(&denied, READ).holding(&sids));
    }
    questions
}

/// Each of the 28 bits by an entry of its own, the highest first; the last
/// one is granted, denied or not spoken of.
fn a_bit_each() -> Vec<Question> {
    let bits = (0..28).rev().map(|bit| 1 << bit);
    let granted: Vec<EntryPlan> = bits.map(allow).collect();
    let mut denied = granted.clone();
    denied[27] = deny(1);
    let lists = [&granted[..], &denied, &granted[..27]];
    lists.map(|plans| of_entries(plans, MOST_WANTED)).to_vec()
}

/// Denied to others up to the last entry, which allows.
fn longest() -> Question {
    let last = allow(READ);
    let before = LONGEST_LIST - HEADER_LENGTH - last.size();
    let mut plans = entries_of(0x00, before);
    plans.push(last);
    of_entries(&plans, READ).holding(&[stranger(), person()])
}

/// Its size, cut to 16 bits, is that of an empty list: refused by its header.
fn past_the_greatest_length() -> Question {
    let mut list = of_entries(&[], 0).list;
    list.resize(0x1_0000 + HEADER_LENGTH, 0);
    of_list(list, 0)
}
