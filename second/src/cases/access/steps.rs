//! Steps through a list: at, about and between the places where entries
//! begin, behind the last one, and in lists that are refused.

use super::make::{READ, allow, deny, person};
use crate::cases::build::{
    EntryPlan, MOST_NUMBERS, good_list, list_of_plans, nt_sid, random_sid, random_spare,
    with_count, with_spare,
};
use crate::cases::inherit::refusals::bad_lists;
use crate::list::List;
use crate::random::Random;
use crate::records::Case;

/// Of the longest list, which takes one case.
const LONGEST: usize = 65_535;

pub fn cases(random: &mut Random) -> Vec<Case> {
    let mut cases = every_place();
    cases.extend(every_shape());
    cases.extend(every_sid_length(random));
    cases.extend(empty_lists());
    cases.extend(spare_bytes(random));
    cases.extend(random_lists(random));
    cases.extend(refused_lists());
    cases.push(longest());
    cases
}

fn at(list: &[u8], place: usize) -> Case {
    Case::Step {
        list: list.to_vec(),
        place: place as u32,
    }
}

pub fn at_each(list: &[u8], places: impl IntoIterator<Item = usize>) -> Vec<Case> {
    places.into_iter().map(|place| at(list, place)).collect()
}

/// The beginning, each entry's and one less and more, the end, the length and
/// past it, and the greatest number.
pub fn telling_places(list: &[u8]) -> Vec<usize> {
    let parsed = List::parse(list).expect("these lists are good");
    let begins = parsed.entries.iter().map(|entry| entry.offset);
    let mut places: Vec<usize> = begins
        .chain([parsed.end, list.len()])
        .flat_map(|place| [place - 1, place, place + 1])
        .chain([0, 1, u32::MAX as usize])
        .collect();
    places.sort();
    places.dedup();
    places
}

/// Of one list of three entries, all places there are and some past it.
fn every_place() -> Vec<Case> {
    let object = EntryPlan {
        word: 2,
        ..EntryPlan::plain(5, 0x0A, nt_sid(&[]))
    };
    let list = good_list(&[allow(READ), object, deny(READ)]);
    let past = [
        0x100,
        0x1_0000,
        0x1_0008,
        0x8000_0008,
        0xFFFF_FFFE,
        0xFFFF_FFFF,
    ];
    at_each(&list, (0..list.len() + 4).chain(past))
}

/// Every type and word under some flags, alone and behind another entry.
fn every_shape() -> Vec<Case> {
    let mut cases = Vec::new();
    for entry_type in [0, 1, 5, 6] {
        for word in 0..if entry_type < 5 { 1 } else { 4 } {
            for flags in [0x00, 0x0F, 0x1F] {
                let plan = EntryPlan {
                    mask: 0xFEDC_BA98,
                    ..EntryPlan::object(entry_type, flags, word, person())
                };
                cases.extend(at_each(&good_list(&[plan.clone()]), [0, 8, 9]));
                cases.push(at(&good_list(&[allow(READ), plan]), 28));
            }
        }
    }
    cases
}

fn every_sid_length(random: &mut Random) -> Vec<Case> {
    let mut cases = Vec::new();
    for numbers in 0..=MOST_NUMBERS {
        let plan = allow(READ).naming(random_sid(random, numbers));
        let end = 8 + plan.size();
        let list = good_list(&[plan, deny(READ)]);
        cases.extend(at_each(&list, [0, end]));
    }
    cases
}

fn empty_lists() -> Vec<Case> {
    let mut cases = Vec::new();
    for revision in [2, 4] {
        let empty = list_of_plans(revision, &[]);
        cases.extend(at_each(&empty, telling_places(&empty)));
        let spare = with_spare(&empty, &allow(READ).bytes());
        cases.extend(at_each(&spare, telling_places(&spare)));
    }
    cases
}

/// Some look like an entry, others are entries that the count hides.
fn spare_bytes(random: &mut Random) -> Vec<Case> {
    let plans = [allow(READ), deny(READ).naming(nt_sid(&[]))];
    let list = good_list(&plans);
    let mut lists = vec![
        with_spare(&list, &allow(READ).bytes()),
        with_count(&list, 1),
        with_spare(&list, &[0]),
    ];
    for length in [2, 4, 7, 21] {
        lists.push(with_spare(&list, &random_spare(random, length)));
    }
    let each = lists.iter();
    each.flat_map(|list| at_each(list, telling_places(list)))
        .collect()
}

fn random_lists(random: &mut Random) -> Vec<Case> {
    let mut cases = Vec::new();
    for entries in [1, 2, 3, 5, 8] {
        let plans: Vec<EntryPlan> = (0..entries)
            .map(|_| EntryPlan::random(random, true))
            .collect();
        let list = good_list(&plans);
        cases.extend(at_each(&list, telling_places(&list)));
    }
    cases
}

/// Whatever the place is.
fn refused_lists() -> Vec<Case> {
    let mut cases = Vec::new();
    for (turn, list) in bad_lists().into_iter().enumerate() {
        let place = [8, 28, list.len()][turn % 3];
        cases.extend(at_each(&list, [0, place, u32::MAX as usize]));
    }
    cases
}

/// Spare bytes up to the greatest length, and the last entry far behind.
fn longest() -> Case {
    let plans = vec![deny(READ).naming(nt_sid(&[7; MOST_NUMBERS])); 860];
    let list = good_list(&plans);
    let last = list.len() - plans[0].size();
    let spare = vec![0xEE; LONGEST - list.len()];
    at(&with_spare(&list, &spare), last)
}
