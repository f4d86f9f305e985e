//! Both methods, what is said of their outcome, and the definition.

use super::*;
use crate::random::Random;

/// Every word of up to so many letters.
fn words(letters: &str, most: usize) -> Vec<String> {
    let mut words = vec![String::new()];
    let mut from = 0;
    for _ in 0..most {
        let to = words.len();
        for at in from..to {
            let longer: Vec<String> = letters
                .chars()
                .map(|c| format!("{}{c}", words[at]))
                .collect();
            words.extend(longer);
        }
        from = to;
    }
    words
}

fn random_word(random: &mut Random, letters: usize, most: usize) -> String {
    let length = random.below(most + 1);
    (0..length)
        .map(|_| *random.pick(&b"abcdef"[..letters]) as char)
        .collect()
}

/// Few letters, so that there is much to choose from.
fn random_pairs(seed: u64, count: usize, most: usize) -> Vec<(String, String)> {
    let mut random = Random::new(seed);
    (0..count)
        .map(|_| {
            let letters = 1 + random.below(4);
            let mut word = || random_word(&mut random, letters, most);
            (word(), word())
        })
        .collect()
}

#[test]
fn on_every_pair_of_short_words() {
    let words = words("ab", 4);
    assert_eq!(words.len(), 1 + 2 + 4 + 8 + 16);
    for first in &words {
        for second in &words {
            let (ones, others) = (letters(first), letters(second));
            let by_choices = choices::kept(&ones, &others);
            assert_eq!(by_choices, table::kept(&ones, &others), "{first} {second}");
        }
    }
}

#[test]
fn on_random_words() {
    for (first, second) in random_pairs(1, 2_000, FEW) {
        let (ones, others) = (letters(&first), letters(&second));
        let by_choices = choices::kept(&ones, &others);
        assert_eq!(by_choices, table::kept(&ones, &others), "{first} {second}");
    }
    // One is longer than the call would try choices on.
    for (first, second) in random_pairs(2, 60, FEW + 3) {
        let (ones, others) = (letters(&first), letters(&second));
        let by_choices = choices::kept(&ones, &others);
        assert_eq!(by_choices, kept(&ones, &others), "{first} {second}");
    }
}

/// As the ticket says it, one after the other: the earliest of the first list
/// that can be kept, matched with the earliest place in the second, and so on.
#[test]
fn the_least_way_is_the_one_of_the_tickets_words() {
    for (first, second) in random_pairs(3, 500, 5) {
        let (ones, others) = (letters(&first), letters(&second));
        let mut ways = choices::longest(&ones, &others);
        for place in 0..ways[0].len() {
            let earliest = ways.iter().map(|way| way[place].0).min();
            ways.retain(|way| Some(way[place].0) == earliest);
            let earliest = ways.iter().map(|way| way[place].1).min();
            ways.retain(|way| Some(way[place].1) == earliest);
        }
        assert_eq!(ways, [kept(&ones, &others)], "{first} {second}");
    }
}

/// By taking a letter off either word, or the same one off both.
fn fewest_steps(first: &[u8], second: &[u8]) -> usize {
    let ([one, ones @ ..], [other, others @ ..]) = (first, second) else {
        return first.len() + second.len();
    };
    let removed = 1 + fewest_steps(ones, second);
    let added = 1 + fewest_steps(first, others);
    let kept = if one == other {
        fewest_steps(ones, others)
    } else {
        usize::MAX
    };
    removed.min(added).min(kept)
}

#[test]
fn nothing_shorter_turns_one_into_the_other() {
    for (first, second) in random_pairs(4, 500, 5) {
        let compared = compared(&first, &second);
        let steps = compared.removed.len() + compared.added.len();
        let fewest = fewest_steps(first.as_bytes(), second.as_bytes());
        assert_eq!(steps, fewest, "{first} {second}");
    }
}

fn compared(first: &str, second: &str) -> Compared {
    let mut row = vec![0; first.len() + second.len()];
    try_compare(&list(first), &list(second), &mut row).unwrap()
}

/// The removed ones are taken out from behind, then the added ones put in from
/// the front.
#[test]
fn the_numbers_turn_one_into_the_other() {
    for (first, second) in random_pairs(5, 1_000, 20) {
        let compared = compared(&first, &second);
        let mut word = first.as_bytes().to_vec();
        for &number in compared.removed.iter().rev() {
            word.remove(number);
        }
        for &number in &compared.added {
            word.insert(number, second.as_bytes()[number]);
        }
        assert_eq!(word, second.as_bytes(), "{first} {second}");
    }
}

#[test]
fn the_other_way_about_as_many_are_kept() {
    for (first, second) in random_pairs(6, 500, 12) {
        let [there, back] = [compared(&first, &second), compared(&second, &first)];
        assert_eq!(there.removed.len(), back.added.len(), "{first} {second}");
        assert_eq!(there.added.len(), back.removed.len(), "{first} {second}");
    }
}

#[test]
fn ties_are_told_by_how_ways_differ() {
    for (first, second, expected) in [
        ("", "", &[][..]),
        ("ab", "ab", &[]),
        ("ab", "cd", &[]),
        ("aa", "a", &[Tie::First]),
        ("a", "aa", &[Tie::Second]),
        ("ab", "ba", &[Tie::Entries]),
        ("aab", "baa", &[]),
        ("aab", "ba", &[Tie::First, Tie::Entries]),
        ("aabcd", "abbdc", &Tie::ALL),
        ("aaaaaaa", "a", &[]),
    ] {
        let found = ties(&list(first), &list(second));
        assert_eq!(found, expected, "{first} {second}");
    }
}
