//! Headers that differ in one field or in more, of lists that are good: the
//! revision, the count, the size. The zeros can't differ.

use super::make::{both_ways, entries, fitting, list, numbered};
use crate::cases::build::{EntryPlan, list_of, nt_sid, with_spare};
use crate::records::Case;
use crate::sidebyside::Lists;

/// Lists of none, one, two and eight entries.
const WORDS: [&str; 4] = ["", "a", "ab", "abcabcab"];

pub fn cases() -> Vec<Case> {
    let mut pairs = revisions();
    pairs.extend(counts_of_the_same_size());
    pairs.extend(sizes_of_the_same_count());
    fitting(pairs)
}

/// 2 and 4, each with each.
fn revisions() -> Vec<Lists> {
    let mut pairs = Vec::new();
    for word in WORDS {
        for other in [word, "ba"] {
            for (first, second) in [(2, 4), (4, 2), (4, 4)] {
                let lists = [(first, word), (second, other)];
                let [one, other] = lists.map(|(revision, word)| list_of(revision, &entries(word)));
                pairs.push((one, other));
            }
        }
    }
    pairs
}

/// The size is the same, the count isn't: entries of 32 bytes against twice as
/// many of 16.
fn counts_of_the_same_size() -> Vec<Lists> {
    let long = EntryPlan::plain(0, 0, nt_sid(&[1, 2, 3, 4])).bytes();
    let mut pairs = Vec::new();
    for count in 1..=3 {
        let few = list_of(2, &vec![long.clone(); count]);
        let many: Vec<Vec<u8>> = (0..2 * count as u32).map(numbered).collect();
        let many = list_of(2, &many);
        assert_eq!(few.len(), many.len());
        for spare in [&[][..], &[0xEE]] {
            pairs.extend(both_ways((
                with_spare(&few, spare),
                with_spare(&many, spare),
            )));
        }
    }
    pairs
}

/// The count is the same, the size isn't: by an entry's size, by spare bytes,
/// and by both; or by neither, as one makes up for the other.
fn sizes_of_the_same_count() -> Vec<Lists> {
    let (short, long) = (list("ab"), list("cb"));
    assert_eq!(short.len() + 4, long.len());
    let lists = [
        short.clone(),
        long.clone(),
        with_spare(&short, &[0; 4]),
        with_spare(&long, &[0; 4]),
        with_spare(&short, &[0; 8]),
    ];
    let mut pairs = Vec::new();
    for first in &lists {
        for second in &lists {
            pairs.push((first.clone(), second.clone()));
        }
    }
    pairs
}
