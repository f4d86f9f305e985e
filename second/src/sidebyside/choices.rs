//! Every choice of entries of the first list, beside every choice of the
//! second's: where they are the same, one by one, they can be kept.

use super::Pair;

/// The least of the longest.
pub fn kept(first: &[&[u8]], second: &[&[u8]]) -> Vec<Pair> {
    let least = longest(first, second).into_iter().min();
    least.expect("nothing at all can be kept too")
}

/// All ways to keep as many as can be.
pub fn longest(first: &[&[u8]], second: &[&[u8]]) -> Vec<Vec<Pair>> {
    let mut ways = ways(first, second);
    let most = ways.iter().map(Vec::len).max();
    ways.retain(|way| Some(way.len()) == most);
    ways
}

fn ways(first: &[&[u8]], second: &[&[u8]]) -> Vec<Vec<Pair>> {
    let of_second = choices(second.len());
    let mut ways = Vec::new();
    for ones in choices(first.len()) {
        for others in &of_second {
            let kept = ones.iter().map(|&number| first[number]);
            if kept.eq(others.iter().map(|&number| second[number])) {
                let pairs = ones.iter().copied().zip(others.iter().copied());
                ways.push(pairs.collect());
            }
        }
    }
    ways
}

/// Every set of so many numbers, each set rising.
fn choices(count: usize) -> Vec<Vec<usize>> {
    let has = |set: usize, number: &usize| set >> number & 1 == 1;
    let sets = 0..1 << count;
    sets.map(|set| (0..count).filter(|number| has(set, number)).collect())
        .collect()
}
