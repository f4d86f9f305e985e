//! One fault at a time, at every check.

use super::ample_row;
use crate::cases::build::{
    EntryPlan, creator_sid, fix_size, list_of, list_of_plans, nt_sid, set_count, set_size,
};
use crate::cases::spoil::{Spoil, real_lengths, spoilt, thorough};
use crate::records::Case;

const COUNT: usize = 3;

pub fn cases() -> Vec<Case> {
    let mut cases = Vec::new();
    for (revision, plans) in subjects() {
        let good = list_of_plans(revision, &plans);
        cases.extend(header_bytes(&good));
        cases.extend(size_fields(&good));
        cases.extend(counts(&good));
        cases.extend(cuts(&good));
        cases.extend(appended(&good));
        cases.extend(spoilt_entries(revision, &plans));
        cases.extend(resized_last(revision, &plans));
    }
    cases.extend(object_entries_under_revision_2());
    cases
}

/// Lists of three entries, each revision one.
fn subjects() -> [(u8, [EntryPlan; COUNT]); 2] {
    [
        (
            2,
            [
                EntryPlan::plain(0, 0x03, creator_sid(0)),
                EntryPlan::plain(1, 0x10, nt_sid(&[])),
                EntryPlan::plain(0, 0x1F, nt_sid(&[18])),
            ],
        ),
        (
            4,
            [
                EntryPlan::object(5, 0x0B, 1, nt_sid(&[18])),
                EntryPlan::object(6, 0x12, 0, creator_sid(1)),
                EntryPlan::object(5, 0x00, 2, nt_sid(&[32, 544])),
            ],
        ),
    ]
}

fn read(list: Vec<u8>) -> Case {
    let place = list.len();
    Case::read(ample_row(COUNT, place), list)
}

fn header_bytes(good: &[u8]) -> Vec<Case> {
    let mut cases = Vec::new();
    for at in 0..8 {
        for value in [0, 1, 2, 3, 4, 5, 0x80, 0xFF] {
            let mut list = good.to_vec();
            list[at] = value;
            cases.push(read(list));
        }
    }
    cases
}

fn size_fields(good: &[u8]) -> Vec<Case> {
    let length = good.len() as u16;
    let near = [1, 2, 4].map(|step| [length - step, length + step]);
    let swapped = length.swap_bytes();
    let sizes = [
        0,
        1,
        2,
        3,
        4,
        7,
        8,
        length - 8,
        length | 0x0100,
        0xFFFF,
        swapped,
    ];
    let with_size = |size: u16| {
        let mut list = good.to_vec();
        set_size(&mut list, size);
        read(list)
    };
    near.into_iter()
        .flatten()
        .chain(sizes)
        .map(with_size)
        .collect()
}

fn counts(good: &[u8]) -> Vec<Case> {
    let with_count = |count: usize| {
        let mut list = good.to_vec();
        set_count(&mut list, count);
        read(list)
    };
    [0, 1, 2, 4, 5, 8, 0x0103, 0x0300, 0x8000, 0xFFFF]
        .map(with_count)
        .to_vec()
}

/// The list cut at every length, its size field left or following.
fn cuts(good: &[u8]) -> Vec<Case> {
    let mut cases = Vec::new();
    for length in 0..good.len() {
        let cut = good[..length].to_vec();
        let mut fixed = cut.clone();
        fix_size(&mut fixed);
        cases.extend([read(cut), read(fixed)]);
    }
    cases
}

/// Bytes after the last entry, zeros or what looks like an entry.
fn appended(good: &[u8]) -> Vec<Case> {
    let mut cases = Vec::new();
    let entry = EntryPlan::plain(0, 0, nt_sid(&[18])).bytes();
    for length in [1, 2, 3, 4, 7, 8, 12, 16, 20] {
        for tail in [&[0; 20], &entry[..]] {
            let unfixed = [good, &tail[..length]].concat();
            let mut fixed = unfixed.clone();
            fix_size(&mut fixed);
            cases.extend([read(unfixed), read(fixed)]);
        }
    }
    cases
}

fn with_entry(revision: u8, plans: &[EntryPlan], place: usize, spoil: Spoil) -> Case {
    let mut entries: Vec<Vec<u8>> = plans.iter().map(EntryPlan::bytes).collect();
    entries[place] = spoilt(&plans[place], &[spoil]);
    read(list_of(revision, &entries))
}

/// First, middle and last entry.
fn spoilt_entries(revision: u8, plans: &[EntryPlan]) -> Vec<Case> {
    let spoil_at = |place: usize| {
        let spoils = thorough(&plans[place]).into_iter();
        spoils.map(move |spoil| with_entry(revision, plans, place, spoil))
    };
    (0..COUNT).flat_map(spoil_at).collect()
}

fn resized_last(revision: u8, plans: &[EntryPlan]) -> Vec<Case> {
    let last = COUNT - 1;
    real_lengths(&plans[last])
        .map(|spoil| with_entry(revision, plans, last, spoil))
        .collect()
}

fn object_entries_under_revision_2() -> Vec<Case> {
    let mut cases = Vec::new();
    for entry_type in [5, 6] {
        for place in 0..COUNT {
            for word in 0..4 {
                let plain = EntryPlan::plain(0, 0, nt_sid(&[18]));
                let mut plans = vec![plain; COUNT];
                plans[place] = EntryPlan::object(entry_type, 0, word, nt_sid(&[]));
                cases.push(read(list_of_plans(2, &plans)));
            }
        }
    }
    cases
}
