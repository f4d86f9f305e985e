//! Conditional entries: MS-DTYP's page on when they apply.

use super::*;

/// The name "a" is 1: 23 bytes and a zero.
const A_IS_1: &str = "61727478 F8 02000000 6100 04 0100000000000000 03 02 80 00";

const IS_1: &str = "0200 6100 0100000000000000";
const IS_2: &str = "0200 6100 0200000000000000";
const NOTHING: &str = "";

fn conditional(entry_type: u8, mask: u32) -> Vec<u8> {
    entry(entry_type, 0, mask, &format!("{SYSTEM} {A_IS_1}"))
}

fn asked_with(entries: &[Vec<u8>], table: &str, wanted: u32) -> [u32; 8] {
    let question = question(list(entries), SYSTEM, wanted);
    may_open_with(&question, &hex::decode(table).unwrap())
}

/// True, false, unknown.
fn by_each_truth(entries: &[Vec<u8>], wanted: u32) -> [[u32; 8]; 3] {
    [IS_1, IS_2, NOTHING].map(|table| asked_with(entries, table, wanted))
}

#[test]
fn an_allow_grants_by_a_true_condition_alone() {
    assert_eq!(by_each_truth(&[conditional(9, 1)], 1), [YES, NO, NO]);
    assert_eq!(by_each_truth(&[conditional(9, 1)], 2), [NO, NO, NO]);
    assert_eq!(by_each_truth(&[conditional(9, 1)], 0), [YES, YES, YES]);
}

/// Unknown passes an allow over, so a later entry may grant or deny.
#[test]
fn entries_behind_an_allow() {
    let allowed_later = [conditional(9, 1), entry(0, 0, 1, SYSTEM)];
    assert_eq!(by_each_truth(&allowed_later, 1), [YES, YES, YES]);
    let denied_later = [conditional(9, 1), entry(1, 0, 1, SYSTEM)];
    assert_eq!(by_each_truth(&denied_later, 1), [YES, NO, NO]);
}

#[test]
fn a_deny_denies_by_a_true_and_an_unknown_condition() {
    let allowed_later = [conditional(10, 1), entry(0, 0, 3, SYSTEM)];
    assert_eq!(by_each_truth(&allowed_later, 1), [NO, YES, NO]);
    assert_eq!(by_each_truth(&allowed_later, 2), [YES, YES, YES]);
    assert_eq!(by_each_truth(&allowed_later, 3), [NO, YES, NO]);
    let allowed_before = [entry(0, 0, 1, SYSTEM), conditional(10, 1)];
    assert_eq!(by_each_truth(&allowed_before, 1), [YES, YES, YES]);
    assert_eq!(by_each_truth(&[conditional(10, 1)], 1), [NO, NO, NO]);
}

#[test]
fn two_conditional_entries() {
    let deny_first = [conditional(10, 1), conditional(9, 1)];
    assert_eq!(by_each_truth(&deny_first, 1), [NO, NO, NO]);
    let allow_first = [conditional(9, 1), conditional(10, 1)];
    assert_eq!(by_each_truth(&allow_first, 1), [YES, NO, NO]);
}

/// The rest is as for other entries.
#[test]
fn a_true_condition_is_not_all() {
    let inherit_only = entry(9, 8, 1, &format!("{SYSTEM} {A_IS_1}"));
    assert_eq!(by_each_truth(&[inherit_only], 1), [NO, NO, NO]);
    let strangers = entry(9, 0, 1, &format!("{ADMINS} {A_IS_1}"));
    assert_eq!(by_each_truth(&[strangers], 1), [NO, NO, NO]);
}

#[test]
fn without_a_table_every_name_is_missing() {
    let entries = [conditional(9, 1)];
    assert_eq!(asked(&entries, SYSTEM, 1), NO);
    let not_there = "61727478 F8 02000000 6100 87 A2 000000";
    let entries = [entry(9, 0, 1, &format!("{SYSTEM} {not_there}"))];
    assert_eq!(asked(&entries, SYSTEM, 1), YES);
    assert_eq!(asked_with(&entries, IS_1, 1), NO);
}

/// 14, then the list's, then 6, 7 and 23.
#[test]
fn a_bad_table_is_refused_last() {
    let bad_table = [0];
    let ask = |list: Vec<u8>, has_list, held: &str, wanted| {
        let question = Question {
            has_list,
            ..question(list, held, wanted)
        };
        may_open_with(&question, &bad_table)
    };
    let good = list(&[conditional(9, 1)]);
    let mut bad = good.clone();
    *bad.last_mut().unwrap() = 1;
    let too_many = SYSTEM.repeat(33);
    assert_eq!(ask(bad.clone(), 1, "FF", 0x1000_0000), refused(14));
    assert_eq!(ask(bad, 1, "FF", 1), [15, 0, 8, 0, 0, 0, 0, 0]);
    assert_eq!(ask(good.clone(), 1, "FF", 1), refused(6));
    assert_eq!(ask(good.clone(), 1, &too_many, 1), refused(7));
    assert_eq!(ask(good.clone(), 1, SYSTEM, 1), refused(23));
    // Before the easy yes, and where nothing is conditional.
    assert_eq!(ask(good.clone(), 1, SYSTEM, 0), refused(23));
    assert_eq!(ask(good, 0, "", 1), refused(23));
    assert_eq!(ask(list(&[]), 1, "", 0), refused(23));
}

/// The SID begins at 8 in the entry, whatever stands behind it.
#[test]
fn the_walk_tells_where_the_sid_is() {
    let list = list(&[conditional(10, 0x1F), entry(0, 0, 1, SYSTEM)]);
    let found = [10, 0, 44, 0x1F, 0, 8, 12, 52];
    assert_eq!(step(&list, 0), ([0, 0, 0, 8, 1, 0, 0, 0], found));
    let found = [0, 0, 20, 1, 0, 8, 12, 72];
    assert_eq!(step(&list, 9), ([0, 0, 0, 52, 1, 0, 0, 0], found));
    let mut bad = list;
    bad[28] = 0;
    assert_eq!(step(&bad, 60), ([15, 0, 8, 0, 0, 0, 0, 0], [0; 8]));
}
