//! Words whose pairs were worked by hand.

use super::*;

#[track_caller]
fn assert_kept(first: &str, second: &str, pairs: &[Pair]) {
    let (ones, others) = (letters(first), letters(second));
    assert_eq!(kept(&ones, &others), pairs, "{first} {second}");
    assert_eq!(choices::kept(&ones, &others), pairs, "{first} {second}");
    assert_eq!(table::kept(&ones, &others), pairs, "{first} {second}");
}

#[test]
fn nothing_to_keep() {
    assert_kept("", "", &[]);
    assert_kept("a", "", &[]);
    assert_kept("", "ab", &[]);
    assert_kept("aa", "bbb", &[]);
}

#[test]
fn the_same() {
    assert_kept("a", "a", &[(0, 0)]);
    assert_kept("aa", "aa", &[(0, 0), (1, 1)]);
    assert_kept("abc", "abc", &[(0, 0), (1, 1), (2, 2)]);
}

/// Of equal entries the first ones are kept, in the first places.
#[test]
fn one_entry_many_times() {
    assert_kept("aa", "a", &[(0, 0)]);
    assert_kept("a", "aa", &[(0, 0)]);
    assert_kept("aaaaa", "aa", &[(0, 0), (1, 1)]);
    assert_kept("aa", "aaaaa", &[(0, 0), (1, 1)]);
}

/// a and b can't both be kept: a is the earlier one of the first list.
#[test]
fn crossing() {
    assert_kept("ab", "ba", &[(0, 1)]);
    assert_kept("abc", "cba", &[(0, 2)]);
    // c alone is one, a b are two.
    assert_kept("cab", "abc", &[(1, 0), (2, 1)]);
}

/// The earliest entry isn't kept where fewer would be kept with it.
#[test]
fn as_many_as_can_be_comes_first() {
    // With a there is nothing behind it in the second; b c d are three.
    assert_kept("abcd", "bcda", &[(1, 0), (2, 1), (3, 2)]);
    // Two and two: a b is the earlier.
    assert_kept("abcd", "cdab", &[(0, 2), (1, 3)]);
    // a b a from the front, not b a b.
    assert_kept("abab", "baba", &[(0, 1), (1, 2), (2, 3)]);
}

/// The first a and the first b that go together; the b of the second that is
/// before the a is no use.
#[test]
fn the_earliest_of_each() {
    assert_kept("aab", "ab", &[(0, 0), (2, 1)]);
    assert_kept("abb", "ab", &[(0, 0), (1, 1)]);
    assert_kept("ab", "aabb", &[(0, 0), (1, 2)]);
    assert_kept("ab", "bab", &[(0, 1), (1, 2)]);
    // x is nowhere in the second.
    assert_kept("axa", "aa", &[(0, 0), (2, 1)]);
}

/// Four are kept: with five, the second would lose one letter alone, and none
/// of the six ways to do that is within the first.
///
/// a at 0 goes to 2 at the earliest; behind are b c a b b a and b a c, with b a
/// in common: three in all, so it isn't kept. b at 1 goes to 1; behind are c a
/// b b a and a b a c, with a b a in common: four, so it is. c at 2 goes to 5,
/// behind which nothing is. a at 3 goes to 2; behind are b b a and b a c, with
/// b a in common. b at 4 goes to 3. b at 5 finds no b, a at 6 goes to 4.
#[test]
fn the_known_words() {
    assert_kept("abcabba", "cbabac", &[(1, 1), (3, 2), (4, 3), (6, 4)]);
}

/// c at 0 goes to 2; behind are b a b a c and a b b a, with b b a in common:
/// four. b at 1 goes to 4; behind are a b a c and b a, with b a in common. a at
/// 2 would go to 6, behind which nothing is. b at 3 goes to 5, a at 4 to 6.
#[test]
fn the_known_words_the_other_way_about() {
    assert_kept("cbabac", "abcabba", &[(0, 2), (1, 4), (3, 5), (4, 6)]);
}

/// The numbers of the answer for the first of the known words.
#[test]
fn what_the_pairs_leave() {
    let (answer, row) = laid(&list("abcabba"), &list("cbabac"), 6);
    assert_eq!(answer, [0, 0, 0, 3, 2, HEADERS_DIFFER, 0, 0]);
    assert_eq!(row, [0, 2, 5, 0, 5, 95]);
}
