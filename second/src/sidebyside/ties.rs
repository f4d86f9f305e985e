//! Where as many entries can be kept in another way: what the least way is
//! chosen from.

use super::call::entries;
use super::kept::are_few;
use super::{Pair, choices};
use crate::list::List;

/// How another way differs from the least.
#[derive(Clone, Copy, Debug, PartialEq, Eq)]
pub enum Tie {
    /// By numbers of the first list alone.
    First,
    /// By numbers of the second list alone.
    Second,
    /// By what is kept.
    Entries,
}

impl Tie {
    pub const ALL: [Tie; 3] = [Tie::First, Tie::Second, Tie::Entries];

    pub fn name(self) -> &'static str {
        match self {
            Tie::First => "others of the first could be kept",
            Tie::Second => "other places in the second would do",
            Tie::Entries => "other entries could be kept",
        }
    }

    fn is_between(self, first: &[&[u8]], least: &[Pair], other: &[Pair]) -> bool {
        let [(ones, others), (other_ones, other_others)] = [least, other].map(numbers);
        match self {
            Tie::First => ones != other_ones && others == other_others,
            Tie::Second => ones == other_ones && others != other_others,
            Tie::Entries => {
                let kept = ones.iter().map(|&one| first[one]);
                kept.ne(other_ones.iter().map(|&one| first[one]))
            }
        }
    }
}

fn numbers(pairs: &[Pair]) -> (Vec<usize>, Vec<usize>) {
    pairs.iter().copied().unzip()
}

/// All that there are between two good lists; where one has more than a few
/// entries none is told.
pub fn ties(first: &[u8], second: &[u8]) -> Vec<Tie> {
    let [first, second] = [first, second].map(|list| {
        let list = List::parse(list).expect("these lists are good");
        entries(&list)
    });
    if !are_few(&first, &second) {
        return Vec::new();
    }
    let mut ways = choices::longest(&first, &second);
    ways.sort();
    let least = ways.remove(0);
    let there_is = |tie: &Tie| ways.iter().any(|way| tie.is_between(&first, &least, way));
    Tie::ALL.into_iter().filter(there_is).collect()
}
