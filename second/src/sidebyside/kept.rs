//! Which entries are kept.

use super::{choices, table};

/// The numbers of an entry of the first list and of one of the second that
/// have the same bytes.
pub type Pair = (usize, usize);

/// Where neither list has more, every choice is tried.
pub const FEW: usize = 6;

pub fn kept(first: &[&[u8]], second: &[&[u8]]) -> Vec<Pair> {
    if are_few(first, second) {
        choices::kept(first, second)
    } else {
        table::kept(first, second)
    }
}

pub fn are_few(first: &[&[u8]], second: &[&[u8]]) -> bool {
    first.len() <= FEW && second.len() <= FEW
}
