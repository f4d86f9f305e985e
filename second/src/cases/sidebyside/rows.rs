//! The length of the row: one short, exact, one more, none, and others.

use super::make::{case, list, lists, needed};
use crate::cases::build::with_spare;
use crate::records::{Case, LONGEST_ROW};

pub fn cases() -> Vec<Case> {
    let mut cases = Vec::new();
    for (first, second) in [
        ("", ""),
        ("ab", "ab"),
        ("a", ""),
        ("", "abc"),
        ("ab", "ba"),
        ("abcabba", "cbabac"),
        ("aaaa", "bbbb"),
        ("abcdefgh", "efgh"),
        ("efgh", "abcdefghij"),
    ] {
        let lists = lists(first, second);
        let needed = needed(&lists).expect("they are compared");
        let about = needed.saturating_sub(3)..=needed + 3;
        let others = [0, 1, needed / 2, needed + 40, LONGEST_ROW.into()];
        cases.extend(about.chain(others).map(|row| case(&lists, row)));
    }
    cases.extend(every_length());
    cases
}

/// From none to more than all numbers, with spare bytes and without.
fn every_length() -> Vec<Case> {
    let first = with_spare(&list("abcd"), &[1]);
    let second = with_spare(&list("xbyd"), &[2]);
    let mut cases: Vec<Case> = (0..=8)
        .map(|row| case(&lists("abcd", "xbyd"), row))
        .collect();
    cases.extend((0..=8).map(|row| case(&(first.clone(), second.clone()), row)));
    cases
}
