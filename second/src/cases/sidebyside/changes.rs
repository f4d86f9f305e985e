//! The same list twice, and lists of which one or two entries were removed,
//! added, changed or moved, at every place.

use super::make::{both_ways, fitting, list, lists};
use crate::records::Case;
use crate::sidebyside::Lists;

const WORD: &str = "abcdefghijkl";
/// What stands in a word for a new entry.
const NEW: &str = "z";

pub fn cases() -> Vec<Case> {
    let mut pairs = Vec::new();
    for length in [1, 2, 3, 5, 6, 7, 12] {
        let word = &WORD[..length];
        pairs.push(lists(word, word));
        pairs.extend(single(word));
        pairs.extend(in_a_row_of_one(length));
    }
    pairs.extend(two_places("abcdef"));
    pairs.extend(two_places("abcdefgh"));
    pairs.extend(moved("abcdef"));
    pairs.extend(moved("aabcbc"));
    fitting(pairs)
}

/// With so many letters of the word replaced by others.
fn spliced(word: &str, at: usize, length: usize, others: &str) -> String {
    [&word[..at], others, &word[at + length..]].concat()
}

/// One removed or added, changed, or there twice; first, in the middle and
/// last.
fn single(word: &str) -> Vec<Lists> {
    let mut pairs = Vec::new();
    let last = word.len() - 1;
    for at in [0, last / 2, last] {
        let removed = spliced(word, at, 1, "");
        let changed = spliced(word, at, 1, NEW);
        let twice = spliced(word, at, 0, &word[at..=at]);
        let before = spliced(word, at, 0, NEW);
        for other in [removed, changed, twice, before] {
            pairs.extend(both_ways(lists(word, &other)));
        }
    }
    pairs.extend(both_ways(lists(word, &format!("{word}{NEW}"))));
    pairs
}

/// All but one are the same.
fn in_a_row_of_one(length: usize) -> Vec<Lists> {
    let row = "a".repeat(length);
    let changed = |at: usize| spliced(&row, at, 1, "b");
    let last = length - 1;
    let mut pairs = vec![
        (list(&changed(0)), list(&changed(last))),
        (list(&changed(last)), list(&changed(0))),
    ];
    for at in [0, last / 2, last] {
        pairs.extend(both_ways(lists(&row, &changed(at))));
        let removed = &row[1..];
        pairs.extend(both_ways((list(&changed(at)), list(removed))));
    }
    pairs
}

/// Changed at two places, or removed at one and added at the other.
fn two_places(word: &str) -> Vec<Lists> {
    let mut pairs = Vec::new();
    for one in 0..word.len() {
        for other in one + 1..word.len() {
            let changed = spliced(&spliced(word, one, 1, NEW), other, 1, "y");
            let removed = spliced(&spliced(word, other, 1, NEW), one, 1, "");
            pairs.push(lists(word, &changed));
            pairs.push(lists(word, &removed));
        }
    }
    pairs
}

/// Every letter to every other place.
fn moved(word: &str) -> Vec<Lists> {
    let mut pairs = Vec::new();
    for from in 0..word.len() {
        let without = spliced(word, from, 1, "");
        for to in (0..word.len()).filter(|&to| to != from) {
            let moved = spliced(&without, to, 0, &word[from..=from]);
            pairs.push(lists(word, &moved));
        }
    }
    pairs
}
