//! About 128 entries in the first list, in the second and in both, all of 16
//! bytes; and the longest lists.

use super::make::{case, entry, fitting, list, needed, numbered};
use crate::cases::build::{list_of, set_count, set_size, with_count, with_spare};
use crate::list::HEADER_LENGTH;
use crate::random::Random;
use crate::records::Case;
use crate::sidebyside::{Lists, MOST_ENTRIES};

const COUNTS: [usize; 3] = [MOST_ENTRIES - 1, MOST_ENTRIES, MOST_ENTRIES + 1];
/// Of a list that is handed in.
const LONGEST: usize = 65_535;
/// As many as such a list holds.
const MOST_THERE_ARE: usize = 4_095;

pub fn cases(random: &mut Random) -> Vec<Case> {
    let mut pairs = in_one_list();
    pairs.extend(in_both());
    pairs.extend(much_to_choose_from(random));
    pairs.extend(hidden());
    let mut cases = fitting(pairs);
    cases.extend(rows());
    cases.extend(longest());
    cases
}

fn counted(from: usize, count: usize) -> Vec<Vec<u8>> {
    let numbers = from..from + count;
    numbers.map(|number| numbered(number as u32)).collect()
}

fn counted_list(from: usize, count: usize) -> Vec<u8> {
    list_of(2, &counted(from, count))
}

/// Against an empty list, against one entry that is among them and against one
/// that isn't.
fn in_one_list() -> Vec<Lists> {
    let mut pairs = Vec::new();
    for count in COUNTS {
        let many = counted_list(0, count);
        for few in [list(""), counted_list(count / 2, 1), list("a")] {
            pairs.push((many.clone(), few.clone()));
            pairs.push((few, many.clone()));
        }
    }
    pairs
}

/// The same from the front on, nothing in common, and one removed in the
/// middle.
fn in_both() -> Vec<Lists> {
    let mut pairs = Vec::new();
    for first in COUNTS {
        for second in COUNTS {
            let one = counted_list(0, first);
            pairs.push((one.clone(), counted_list(0, second)));
            pairs.push((one.clone(), counted_list(1_000, second)));
            let mut without = counted(0, second + 1);
            without.remove(second / 2);
            pairs.push((one, list_of(2, &without)));
        }
    }
    pairs
}

/// One letter, two in turn and at random, and all in another order.
fn much_to_choose_from(random: &mut Random) -> Vec<Lists> {
    let word = |letters: &str, count: usize| {
        let letters = letters.chars().cycle().take(count);
        list_of(2, &letters.map(entry).collect::<Vec<_>>())
    };
    let mut at_random = |letters: &[char], count: usize| {
        let letters = (0..count).map(|_| entry(*random.pick(letters)));
        list_of(2, &letters.collect::<Vec<_>>())
    };
    let mut turned = counted(0, MOST_ENTRIES);
    turned.reverse();
    let mut rotated = counted(0, MOST_ENTRIES);
    rotated.rotate_left(50);
    vec![
        (word("a", 128), word("a", 128)),
        (word("a", 128), word("a", 60)),
        (word("a", 60), word("a", 127)),
        (word("a", 129), word("a", 128)),
        (word("ab", 128), word("ba", 128)),
        (word("ab", 127), word("aab", 128)),
        (word("abd", 100), word("dba", 128)),
        (at_random(&['a', 'b'], 128), at_random(&['a', 'b'], 128)),
        (at_random(&['a', 'b'], 90), at_random(&['a', 'b'], 127)),
        (
            at_random(&['a', 'b', 'd'], 128),
            at_random(&['a', 'b', 'd'], 128),
        ),
        (
            at_random(&['a', 'b', 'd', 'e', 'f'], 128),
            at_random(&['a', 'b', 'd', 'e', 'f'], 100),
        ),
        (counted_list(0, MOST_ENTRIES), list_of(2, &turned)),
        (counted_list(0, MOST_ENTRIES), list_of(2, &rotated)),
    ]
}

/// By the count, 128 of more; and 129, of which the last stands where the
/// others have spare bytes.
fn hidden() -> Vec<Lists> {
    let more = counted_list(0, 130);
    let [most, over] = [128, 129].map(|count| with_count(&more, count));
    vec![
        (most.clone(), counted_list(0, 128)),
        (counted_list(0, 128), most.clone()),
        (over.clone(), most.clone()),
        (most, over.clone()),
        (over, counted_list(0, 1)),
    ]
}

/// Nothing in common: 256 numbers, and about as many elements.
fn rows() -> Vec<Case> {
    let apart = (counted_list(0, 128), counted_list(1_000, 128));
    let nearly = (counted_list(0, 128), counted_list(1, 128));
    let mut cases: Vec<Case> = [0, 255, 256, 257, 300]
        .map(|row| case(&apart, row))
        .to_vec();
    let needed = needed(&nearly).expect("they are compared");
    assert_eq!(needed, 2);
    cases.extend([0, 1, 2, 3].map(|row| case(&nearly, row)));
    // 22 comes before 8.
    let over = (counted_list(0, 129), list(""));
    cases.extend([0, 1, 128, 129].map(|row| case(&over, row)));
    cases
}

/// Few, since they are large: as many entries as there can be, 65,535 bytes
/// most of which are spare, and a length that a size can't say.
fn longest() -> Vec<Case> {
    let full = list_of(2, &vec![entry('a'); MOST_THERE_ARE]);
    let two = list("ab");
    let roomy = with_spare(&two, &vec![0xEE; LONGEST - two.len()]);
    let mut past = roomy.clone();
    past.resize(0x1_0000 + HEADER_LENGTH, 0);
    set_count(&mut past, 0);
    set_size(&mut past, HEADER_LENGTH as u16);
    vec![
        case(&(full, two.clone()), 2),
        case(&(two.clone(), roomy), 1),
        case(&(two, past), 1),
    ]
}
