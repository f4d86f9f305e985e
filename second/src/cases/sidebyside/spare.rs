//! Spare bytes: the same, others, of another length, in one list alone, and
//! such as are entries of the other list.

use super::make::{both_ways, entry, fitting, list};
use crate::cases::build::{random_spare, with_count, with_spare};
use crate::random::Random;
use crate::records::Case;
use crate::sidebyside::Lists;

/// Lists of none, one, two and eight entries.
const WORDS: [&str; 4] = ["", "a", "ab", "abcabcab"];

pub fn cases(random: &mut Random) -> Vec<Case> {
    let mut pairs = hidden_entries();
    pairs.extend(spare_bytes());
    pairs.extend(one_spare_byte());
    pairs.extend(entries_in_them());
    pairs.extend(behind_other_entries());
    pairs.extend(random_ones(random));
    fitting(pairs)
}

/// Every count of the same entries against every other: they are bytes of one
/// list and spare bytes of the other.
fn hidden_entries() -> Vec<Lists> {
    let mut pairs = Vec::new();
    for word in ["abca", "aaaa"] {
        let whole = list(word);
        for first in 0..=word.len() {
            for second in 0..=word.len() {
                pairs.push((with_count(&whole, first), with_count(&whole, second)));
            }
        }
    }
    // More than a few.
    let whole = list("abcdefghij");
    for (first, second) in [(10, 9), (10, 1), (7, 8), (0, 10)] {
        let lists = (with_count(&whole, first), with_count(&whole, second));
        pairs.extend(both_ways(lists));
    }
    pairs
}

/// The same ones, others, longer ones, of which one begins the other, and in
/// one list alone.
fn spare_bytes() -> Vec<Lists> {
    let spares: [&[u8]; 9] = [
        &[],
        &[0],
        &[0, 0],
        &[0xEE],
        &[0xEE, 0],
        &[0xEE, 0xEE],
        &[0xEE; 4],
        &[0, 0, 0, 0xEE],
        &[0xEE; 16],
    ];
    let mut pairs = Vec::new();
    for (turn, first) in spares.into_iter().enumerate() {
        for second in spares {
            let word = WORDS[turn % WORDS.len()];
            let other = ["ab", "b", word][turn % 3];
            pairs.push((
                with_spare(&list(word), first),
                with_spare(&list(other), second),
            ));
            if first == second {
                let same = with_spare(&list("ab"), first);
                pairs.push((same.clone(), same));
            }
        }
    }
    pairs
}

/// Of 24, each another one: headers and entries are the same.
fn one_spare_byte() -> Vec<Lists> {
    let roomy = with_spare(&list("ab"), &[0x55; 24]);
    let changed = |at: usize| {
        let mut other = roomy.clone();
        let place = roomy.len() - 24 + at;
        other[place] ^= 1 << (at % 8);
        (roomy.clone(), other)
    };
    (0..24).map(changed).collect()
}

/// What is an entry of one list is behind those of the other.
fn entries_in_them() -> Vec<Lists> {
    let mut pairs = Vec::new();
    for word in ["", "a", "ab", "ba", "aa"] {
        for letter in ['a', 'b', 'c'] {
            let roomy = with_spare(&list(word), &entry(letter));
            let shown = list(&format!("{word}{letter}"));
            let first = list(&format!("{letter}{word}"));
            pairs.extend(both_ways((roomy.clone(), shown)));
            pairs.push((roomy.clone(), first));
            pairs.push((roomy.clone(), list(word)));
            pairs.push((roomy, with_spare(&list(word), &entry('b'))));
        }
    }
    // A whole list behind another, and the same one by itself.
    let inner = list("ab");
    pairs.extend(both_ways((with_spare(&list("ab"), &inner), inner)));
    pairs
}

/// The spare bytes are the same, whatever stands before them.
fn behind_other_entries() -> Vec<Lists> {
    let words = ["", "a", "b", "ab", "cc", "abcabca", "cbacbac"];
    let mut pairs = Vec::new();
    for first in words {
        for second in words {
            let [one, other] = [first, second].map(|word| with_spare(&list(word), &[1, 2, 3]));
            pairs.push((one, other));
        }
    }
    pairs
}

/// Some look like an entry; the last byte is another one at times.
fn random_ones(random: &mut Random) -> Vec<Lists> {
    let mut pairs = Vec::new();
    for length in 1..=40 {
        let spare = random_spare(random, length);
        let mut other = spare.clone();
        match length % 3 {
            0 => {}
            1 => other[length - 1] ^= 1 << random.below(8),
            _ => other.truncate(random.below(length)),
        }
        let word = *random.pick(&WORDS);
        let lists = [spare, other].map(|spare| with_spare(&list(word), &spare));
        let [first, second] = lists;
        pairs.push((first, second));
    }
    pairs
}
