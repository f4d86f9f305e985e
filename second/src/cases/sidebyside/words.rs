//! Words of few letters: every pair of short ones, one letter many times,
//! turned round, and others whose answer hangs on which way is the least.

use super::make::{both_ways, fitting, lists};
use crate::records::Case;
use crate::sidebyside::Lists;

/// Of a word, in every pair.
const SHORT: usize = 4;
/// In a pair of them the letters go from a to this one.
const LAST: u8 = b'c';

pub fn cases() -> Vec<Case> {
    let mut pairs = worked();
    pairs.extend(every_short_pair());
    pairs.extend(one_letter());
    pairs.extend(turned_round());
    pairs.extend(doubled());
    fitting(pairs)
}

/// Those of the tests, worked by hand, and some like them.
fn worked() -> Vec<Lists> {
    let words = [
        ("", ""),
        ("a", ""),
        ("a", "a"),
        ("a", "b"),
        ("ab", "ba"),
        ("abc", "cba"),
        ("cab", "abc"),
        ("abcd", "bcda"),
        ("abcd", "cdab"),
        ("abab", "baba"),
        ("aab", "ab"),
        ("ab", "aabb"),
        ("ab", "bab"),
        ("axa", "aa"),
        ("abcabba", "cbabac"),
        ("aabcd", "abbdc"),
        ("acabcab", "abcacba"),
        ("abcdefgh", "hagbfced"),
        ("abcdabcd", "dcbadcba"),
        ("aaabbbccc", "cccbbbaaa"),
        ("abababab", "bbbbaaaa"),
        ("abcbdab", "bdcaba"),
        ("xmjyauz", "mzjawxu"),
        ("human", "chimpanzee"),
        ("nematode", "knowledge"),
    ];
    let pairs = words.map(|(first, second)| lists(first, second));
    pairs.into_iter().flat_map(both_ways).collect()
}

/// Up to four letters each, of at most three: a letter is the next one that
/// hasn't come yet, or has come, so that no two pairs differ by their letters'
/// names alone.
fn every_short_pair() -> Vec<Lists> {
    let mut pairs = Vec::new();
    let mut words = vec![String::new()];
    for length in 0..=2 * SHORT {
        let least = length.saturating_sub(SHORT);
        for word in &words {
            for at in least..=length.min(SHORT) {
                pairs.push(lists(&word[..at], &word[at..]));
            }
        }
        words = words.iter().flat_map(|word| longer(word)).collect();
    }
    pairs
}

fn longer(word: &str) -> Vec<String> {
    let next = word.bytes().max().map_or(b'a', |last| LAST.min(last + 1));
    let letters = (b'a'..=next).map(char::from);
    letters.map(|letter| format!("{word}{letter}")).collect()
}

/// So many against so many, past the few by which every choice is tried.
fn one_letter() -> Vec<Lists> {
    let counts = [0, 1, 2, 3, 5, 6, 7, 8, 12, 20];
    let mut pairs = Vec::new();
    for first in counts {
        for second in counts {
            pairs.push(lists(&"a".repeat(first), &"a".repeat(second)));
        }
    }
    pairs
}

/// Backwards, and every rotation.
fn turned_round() -> Vec<Lists> {
    let mut pairs = Vec::new();
    for word in [
        "ab", "aab", "abc", "abca", "abcdef", "abcabc", "abcdefgh", "aabbccdd",
    ] {
        let backwards: String = word.chars().rev().collect();
        pairs.push(lists(word, &backwards));
        pairs.push(lists(&backwards, word));
        for at in 1..word.len() {
            let (front, back) = word.split_at(at);
            pairs.push(lists(word, &format!("{back}{front}")));
        }
    }
    pairs
}

/// Each letter twice, the word twice, and one in the other's middle.
fn doubled() -> Vec<Lists> {
    let mut pairs = Vec::new();
    for word in ["a", "ab", "aba", "abc", "abcd"] {
        let each: String = word.chars().flat_map(|letter| [letter; 2]).collect();
        let twice = word.repeat(2);
        let split = format!("{}{word}{}", &word[..1], &word[1..]);
        for (first, second) in [
            (word, &each),
            (word, &twice),
            (&each, &twice),
            (word, &split),
        ] {
            pairs.extend(both_ways(lists(first, second)));
        }
    }
    pairs
}
