//! How many can be kept of what stands from each pair of places on; and the
//! pairs one by one, each the least with which as many are kept.

use super::Pair;

pub fn kept(first: &[&[u8]], second: &[&[u8]]) -> Vec<Pair> {
    let most = table(first, second);
    let mut pairs = Vec::new();
    let mut from = (0, 0);
    while most[from.0][from.1] > 0 {
        let (one, other) = least(first, second, &most, from);
        pairs.push((one, other));
        from = (one + 1, other + 1);
    }
    pairs
}

/// By the place in the first list, then by that in the second. There is
/// nothing behind the last entries.
fn table(first: &[&[u8]], second: &[&[u8]]) -> Vec<Vec<usize>> {
    let mut most = vec![vec![0; second.len() + 1]; first.len() + 1];
    for one in (0..first.len()).rev() {
        for other in (0..second.len()).rev() {
            most[one][other] = if first[one] == second[other] {
                1 + most[one + 1][other + 1]
            } else {
                most[one + 1][other].max(most[one][other + 1])
            };
        }
    }
    most
}

fn least(first: &[&[u8]], second: &[&[u8]], most: &[Vec<usize>], from: Pair) -> Pair {
    let asked = most[from.0][from.1];
    for one in from.0..first.len() {
        for other in from.1..second.len() {
            if first[one] == second[other] && 1 + most[one + 1][other + 1] == asked {
                return (one, other);
            }
        }
    }
    unreachable!("the table counts such a pair")
}
