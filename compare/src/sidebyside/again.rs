//! What the library says when it is asked again: with the lists changed about,
//! and of what stands behind the first pair that it keeps.

use super::applied::Given;
use crate::capi;
use crate::capi::WhenEmpty;
use crate::capi::lending::Lending;
use crate::report::Report;
use second::cases::build::list_of;
use second::list::List;
use second::random::Random;
use second::sidebyside::{Lists, MOST_ENTRIES};

fn asked(random: &mut Random, first: &[u8], second: &[u8], row: &mut [u32]) -> [u32; 8] {
    let mut answer = [0; 8].map(|_: u32| random.word());
    let lending = Lending::apart(WhenEmpty::draw(random));
    capi::sidebyside::compare(first, second, row, &mut answer, &lending);
    answer
}

/// As many removed as were added and the other way about, the same bits; a bad
/// list is told by its other place, if the first isn't bad as well.
pub fn swapped_difference(
    random: &mut Random,
    report: &mut Report,
    (first, second): &Lists,
    row_length: usize,
    answer: &[u32; 8],
) -> Option<String> {
    let swapped = asked(random, second, first, &mut vec![0; row_length]);
    let &[number, list, offset, removed, added, bits, ..] = answer;
    let agrees = match list {
        1 if List::parse(second).is_err() => swapped[0] != 0 && swapped[1] == 1,
        1 | 2 => swapped == [number, 3 - list, offset, 0, 0, 0, 0, 0],
        _ => swapped == [number, 0, 0, added, removed, bits, 0, 0],
    };
    report.add_branch("asked with the lists changed about");
    (!agrees).then(|| format!("{answer:?}, with the lists changed about {swapped:?}"))
}

/// Before the first pair nothing is the same, and what is behind it is compared
/// by itself as it is here.
pub fn behind_difference(
    random: &mut Random,
    report: &mut Report,
    (first, second): &Lists,
    given: &Given,
) -> Option<String> {
    let (ones, others) = given.kept();
    let (&one, &other) = (ones.first()?, others.first()?);
    let before = &given.others[..other];
    if given.ones[..one].iter().any(|entry| before.contains(entry)) {
        return Some("an entry before the first pair could be kept".to_string());
    }
    let rest = |list: &[u8], entries: &[&[u8]]| {
        let entries: Vec<Vec<u8>> = entries.iter().map(|entry| entry.to_vec()).collect();
        list_of(list[0], &entries)
    };
    let (first, second) = (
        rest(first, &given.ones[one + 1..]),
        rest(second, &given.others[other + 1..]),
    );
    let (removed, added) = (past(&given.removed, one), past(&given.added, other));
    let mut row = [0; 2 * MOST_ENTRIES];
    let answer = asked(random, &first, &second, &mut row);
    let counts = [removed.len() as u32, added.len() as u32];
    let numbers = [removed, added].concat();
    let agrees = answer[0] == 0 && answer[3..5] == counts && row.starts_with(&numbers);
    report.add_branch("what is behind a pair compared by itself");
    (!agrees).then(|| format!("behind the pair {one} {other} otherwise by itself: {answer:?}"))
}

/// The numbers past that one, counted from it on.
fn past(numbers: &[usize], one: usize) -> Vec<u32> {
    let past = numbers.iter().filter(|&&number| number > one);
    past.map(|number| (number - one - 1) as u32).collect()
}
