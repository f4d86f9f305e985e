//! The call that compares two lists.

use super::{HEADERS_DIFFER, MOST_ENTRIES, Pair, Refused, SPARE_BYTES_DIFFER, Which, kept};
use crate::list::{HEADER_LENGTH, List};

/// What became of both lists' entries, by their numbers, and of the rest.
#[derive(Clone, Debug, PartialEq, Eq)]
pub struct Compared {
    pub kept: Vec<Pair>,
    pub removed: Vec<usize>,
    pub added: Vec<usize>,
    pub headers_differ: bool,
    pub spare_bytes_differ: bool,
}

impl Compared {
    fn of(first: &[u8], second: &[u8], lists: [&List; 2]) -> Compared {
        let [ones, others] = lists.map(entries);
        let kept = kept(&ones, &others);
        let (of_first, of_second): (Vec<usize>, Vec<usize>) = kept.iter().copied().unzip();
        Compared {
            kept,
            removed: all_but(&of_first, ones.len()),
            added: all_but(&of_second, others.len()),
            headers_differ: first[..HEADER_LENGTH] != second[..HEADER_LENGTH],
            spare_bytes_differ: first[lists[0].end..] != second[lists[1].end..],
        }
    }

    fn bits(&self) -> u32 {
        let found = [
            (HEADERS_DIFFER, self.headers_differ),
            (SPARE_BYTES_DIFFER, self.spare_bytes_differ),
        ];
        let differing = found.iter().filter(|(_, differ)| *differ);
        differing.map(|(bit, _)| bit).sum()
    }

    pub fn name(&self) -> &'static str {
        let is_changed = !self.removed.is_empty() || !self.added.is_empty();
        match (self.kept.is_empty(), is_changed) {
            (true, false) => "no entries",
            (true, true) => "none is kept",
            (false, false) => "all are kept",
            (false, true) => "some are kept",
        }
    }

    /// As the row holds them.
    fn numbers(&self) -> Vec<u32> {
        let both = self.removed.iter().chain(&self.added);
        both.map(|&number| number as u32).collect()
    }
}

/// The eight numbers of the answer.
pub fn compare(first: &[u8], second: &[u8], row: &mut [u32]) -> [u32; 8] {
    match try_compare(first, second, row) {
        Ok(compared) => {
            let removed = compared.removed.len() as u32;
            let added = compared.added.len() as u32;
            [0, 0, 0, removed, added, compared.bits(), 0, 0]
        }
        Err(refused) => refused.answer().eight(),
    }
}

/// Fills the row's front with the numbers, or leaves the row as it was.
pub fn try_compare(first: &[u8], second: &[u8], row: &mut [u32]) -> Result<Compared, Refused> {
    let one = List::parse(first).map_err(|refusal| Refused::List(Which::First, refusal))?;
    let other = List::parse(second).map_err(|refusal| Refused::List(Which::Second, refusal))?;
    if one.entries.len().max(other.entries.len()) > MOST_ENTRIES {
        return Err(Refused::TooManyEntries);
    }
    let compared = Compared::of(first, second, [&one, &other]);
    let numbers = compared.numbers();
    let front = row.get_mut(..numbers.len()).ok_or(Refused::RowTooShort)?;
    front.copy_from_slice(&numbers);
    Ok(compared)
}

pub fn entries<'a>(list: &List<'a>) -> Vec<&'a [u8]> {
    list.entries.iter().map(|entry| entry.bytes).collect()
}

/// The other numbers under `count`, rising.
fn all_but(some: &[usize], count: usize) -> Vec<usize> {
    (0..count).filter(|number| !some.contains(number)).collect()
}
