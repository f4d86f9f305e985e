//! Sizes at their limits. Entries are multiples of 4 bytes, so those of a good
//! list end at 65,532 at most, with up to three spare bytes behind them, and
//! 4,095 entries are the most it holds.

use crate::cases::build::{
    EntryPlan, fix_size, list_of, list_of_plans, nt_sid, set_count, set_size,
};
use crate::records::Case;

const SMALLEST_ENTRY: usize = 16;
const LONGEST_WITHOUT_SPARE: usize = 65_532;
const MOST_ENTRIES: usize = 4_095;

pub fn cases() -> Vec<Case> {
    let mut cases = large();
    cases.extend(small_size_fields());
    cases.extend(sizes_near_the_limit());
    cases
}

fn smallest() -> EntryPlan {
    EntryPlan::plain(0, 0x10, nt_sid(&[]))
}

/// 4,094 entries of 16 bytes, then one of 20.
fn longest_good() -> Vec<u8> {
    let mut plans = vec![smallest(); MOST_ENTRIES - 1];
    plans.push(EntryPlan::plain(1, 0, nt_sid(&[18])));
    let list = list_of_plans(2, &plans);
    assert_eq!(list.len(), LONGEST_WITHOUT_SPARE);
    list
}

/// 584 entries of 112 bytes, then one of 96 and one of 20.
pub fn longest_of_large_entries() -> Vec<u8> {
    let mut plans = vec![EntryPlan::object(5, 0, 3, nt_sid(&[7; 15])); 584];
    plans.push(EntryPlan::object(6, 0, 3, nt_sid(&[7; 11])));
    plans.push(EntryPlan::plain(1, 0, nt_sid(&[18])));
    let list = list_of_plans(4, &plans);
    assert_eq!(list.len(), LONGEST_WITHOUT_SPARE);
    list
}

fn lengthened(mut list: Vec<u8>, length: usize, size_field: u16) -> Vec<u8> {
    list.resize(length, 0);
    set_size(&mut list, size_field);
    list
}

fn single_entry(size_field: usize, list_length: usize) -> Vec<u8> {
    let mut list = list_of_plans(2, &[smallest()]);
    list[10..12].copy_from_slice(&(size_field as u16).to_le_bytes());
    list.resize(list_length, 0);
    fix_size(&mut list);
    list
}

fn large() -> Vec<Case> {
    let longest = longest_good();
    let full = list_of_plans(2, &vec![smallest(); MOST_ENTRIES]);
    let mut one_count_more = lengthened(longest.clone(), 65_535, 65_535);
    set_count(&mut one_count_more, MOST_ENTRIES + 1);
    let mut all_counts = longest.clone();
    set_count(&mut all_counts, 0xFFFF);
    let mut bad_at_the_end = longest_of_large_entries();
    bad_at_the_end[LONGEST_WITHOUT_SPARE - 12] = 2;
    vec![
        Case::read(MOST_ENTRIES, longest.clone()),
        Case::read(MOST_ENTRIES - 1, longest.clone()),
        Case::read(4_200, full),
        Case::read(600, longest_of_large_entries()),
        Case::read(600, bad_at_the_end),
        Case::read(2, all_counts),
        Case::read(2, one_count_more),
        Case::read(MOST_ENTRIES, lengthened(longest.clone(), 65_535, 65_535)),
        Case::read(2, lengthened(longest.clone(), 65_536, 0)),
        Case::read(2, lengthened(longest.clone(), 65_536, 65_535)),
        Case::read(2, lengthened(longest, 65_544, 8)),
        Case::read(2, single_entry(65_527, 65_535)),
        Case::read(2, single_entry(65_524, 65_532)),
    ]
}

/// Small numbers in the size fields of a list and of an entry.
fn small_size_fields() -> Vec<Case> {
    let mut cases = Vec::new();
    for size in [0, 1, 2, 3, 4, 7, 8] {
        for length in [0, 4, 7, 8, 9, 12] {
            let mut list = vec![2, 0, size, 0, 0, 0, 0, 0, 0, 0, 0, 0];
            list.truncate(length);
            cases.push(Case::read(1, list));
        }
        for entry_type in [0, 1, 5, 6, 7] {
            for flags in [0, 0x20] {
                let entry = vec![entry_type, flags, size, 0];
                let padded = [&entry[..], &[0; 4]].concat();
                cases.push(Case::read(1, list_of(4, &[entry])));
                cases.push(Case::read(1, list_of(4, &[padded])));
            }
        }
    }
    cases
}

/// Entry sizes that a sum in 16 bits would wrap around.
fn sizes_near_the_limit() -> Vec<Case> {
    let sizes = (65_500..=65_535).step_by(5);
    let wrapping = sizes.chain([32_767, 32_768, 65_504, 65_512, 65_528, 65_532]);
    let mut cases = Vec::new();
    for size in wrapping {
        let mut second_bad = list_of_plans(2, &[smallest(), smallest()]);
        let at = 8 + SMALLEST_ENTRY + 2;
        second_bad[at..at + 2].copy_from_slice(&(size as u16).to_le_bytes());
        cases.push(Case::read(2, second_bad));
        cases.push(Case::read(2, single_entry(size, 24)));
    }
    cases
}
