//! Spare bytes behind the last entry: of every length and kind, behind lists
//! of several counts, up to 65,535 bytes in all.

use super::ample_row;
use super::boundaries::longest_of_large_entries;
use crate::cases::build::{
    EntryPlan, creator_sid, list_of, list_of_plans, nt_sid, random_list, random_spare, set_size,
    with_count, with_spare,
};
use crate::cases::spoil::{Spoil, one_of_each, spoilt};
use crate::random::Random;
use crate::records::Case;

const MOST_SHORT: usize = 40;
const LONGEST: usize = 65_535;

pub fn cases(random: &mut Random) -> Vec<Case> {
    let mut cases = every_short_length(random);
    cases.extend(whole_entries(random));
    cases.extend(hidden_entries(random));
    cases.extend(size_fields());
    cases.extend(bad_entries());
    cases.extend(entries_that_reach_into_them());
    cases.extend(short_rows(random));
    cases.extend(long(random));
    cases
}

fn plain() -> EntryPlan {
    EntryPlan::plain(0, 0x03, creator_sid(0))
}

fn object() -> EntryPlan {
    EntryPlan::object(6, 0x12, 1, nt_sid(&[18]))
}

/// Behind none, one and two entries.
fn subjects() -> [(usize, Vec<u8>); 3] {
    [
        (0, list_of_plans(2, &[])),
        (1, list_of_plans(2, &[plain()])),
        (2, list_of_plans(4, &[plain(), object()])),
    ]
}

fn every_short_length(random: &mut Random) -> Vec<Case> {
    let mut cases = Vec::new();
    for length in 1..=MOST_SHORT {
        for (count, list) in subjects() {
            let spare = random_spare(random, length);
            let row = ample_row(count, length);
            cases.push(Case::read(row, with_spare(&list, &spare)));
        }
    }
    cases
}

/// A good entry, bad ones by each test, a whole list, and no sense at all.
fn whole_entries(random: &mut Random) -> Vec<Case> {
    let mut tails = vec![
        plain().bytes(),
        object().bytes(),
        plain().bytes().repeat(3),
        list_of_plans(2, &[plain()]),
        vec![0xFF; 20],
        vec![0; 20],
        random.bytes(20),
    ];
    for plan in [plain(), object()] {
        let spoils = one_of_each(&plan).into_iter();
        tails.extend(spoils.map(|spoil| spoilt(&plan, &[spoil])));
    }
    let mut cases = Vec::new();
    for (turn, tail) in tails.iter().enumerate() {
        for (count, list) in subjects() {
            cases.push(Case::read(ample_row(count, turn), with_spare(&list, tail)));
        }
    }
    cases
}

/// Every count from none to all the entries that are there, with rows that
/// would hold all and rows that just hold those counted.
fn hidden_entries(random: &mut Random) -> Vec<Case> {
    let mut cases = Vec::new();
    for entries in 1..=6 {
        for revision in [2, 4] {
            let list = random_list(random, revision, entries);
            for count in 0..entries {
                let list = with_count(&list, count);
                cases.push(Case::read(count, list.clone()));
                cases.push(Case::read(entries, list));
            }
        }
    }
    cases
}

/// The size must still be the length: the end of the entries is no size.
fn size_fields() -> Vec<Case> {
    let mut cases = Vec::new();
    for (count, list) in subjects() {
        for spare in [1, 4, 20] {
            let end = list.len() as u16;
            let length = end + spare;
            for size in [end, end + 1, length - 1, length + 1, 8, 0, 0xFFFF] {
                let mut list = with_spare(&list, &vec![0; spare.into()]);
                set_size(&mut list, size);
                cases.push(Case::read(count, list));
            }
        }
    }
    cases
}

/// Bad entries before spare bytes, the first and the last.
fn bad_entries() -> Vec<Case> {
    let mut cases = Vec::new();
    for plan in [plain(), object()] {
        for spoil in one_of_each(&plan) {
            let bad = spoilt(&plan, &[spoil]);
            for entries in [[bad.clone(), plan.bytes()], [plan.bytes(), bad]] {
                for spare in [1, 25] {
                    let list = with_spare(&list_of(4, &entries), &vec![0; spare]);
                    cases.push(Case::read(2, list));
                }
            }
        }
    }
    cases
}

/// An entry's size may take spare bytes in: good where its SID does too.
fn entries_that_reach_into_them() -> Vec<Case> {
    let mut cases = Vec::new();
    for more in [1, 3, 4, 5, 8, 12, 13] {
        for numbers in [1, 2, 3, 4] {
            let spoils = [
                Spoil::SizeField(plain().size() + more),
                Spoil::SidCount(numbers),
            ];
            let entries = [plain().bytes(), spoilt(&plain(), &spoils)];
            let list = with_spare(&list_of(2, &entries), &[0; 12]);
            cases.push(Case::read(3, list));
        }
    }
    cases
}

fn short_rows(random: &mut Random) -> Vec<Case> {
    let mut cases = Vec::new();
    for entries in 1..=5 {
        let list = random_list(random, 4, entries);
        let roomy = with_spare(&list, &random_spare(random, 3 * entries));
        let rows = [0, entries / 2, entries - 1, entries];
        cases.extend(rows.map(|row| Case::read(row, roomy.clone())));
    }
    cases
}

/// Few, since they are large; one of 65,535 bytes stands among the
/// boundaries.
fn long(random: &mut Random) -> Vec<Case> {
    let [(_, none), (_, one), (_, two)] = subjects();
    let filled_up = |random: &mut Random, list: &[u8], length: usize| {
        let spare = random_spare(random, length - list.len());
        with_spare(list, &spare)
    };
    let large = longest_of_large_entries();
    let small = list_of_plans(2, &vec![EntryPlan::plain(1, 0x10, nt_sid(&[])); 62]);
    vec![
        Case::read(0, filled_up(random, &none, 1_000)),
        Case::read(2, filled_up(random, &one, 1_028)),
        Case::read(2, filled_up(random, &two, 1_077)),
        Case::read(21, with_count(&small, 20)),
        Case::read(2, filled_up(random, &two, LONGEST - 2)),
        Case::read(586, filled_up(random, &large, LONGEST - 1)),
    ]
}
