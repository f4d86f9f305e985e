//! Two people, each in a folder of their own: whatever the other one does
//! between, answers and objects are those that each would have alone.

use super::orders::Order;
use super::{Case, apart, changes, counted};
use second::random::Random;
use second::room::Found;
use second::tree::Change;

/// Changes of one person.
const FEWEST: usize = 2;
const MOST: usize = 5;

impl Case<'_> {
    pub fn of_two_people(&mut self) -> Result<(), String> {
        let tree = self.tree.clone();
        let found = tree.found();
        let Some(folders) = apart::folders(&mut self.random, &found.objects) else {
            return self.in_two_orders(2);
        };
        let inside = folders.map(|folder| apart::within(&found.objects, folder));
        let [mut all, seconds] = inside
            .each_ref()
            .map(|numbers| self.doings(&found, numbers));
        let firsts = all.len();
        all.extend(seconds);
        let alone: [Order; 2] = [(0..firsts).collect(), (firsts..all.len()).collect()];

        let mixes = two_mixes(&mut self.random, &alone);
        let [mixed, mixed_again] = self.play_both(&tree, &all, &mixes)?;
        mixed.is_the_same(&mixed_again)?;
        for (order, numbers) in alone.iter().zip(&inside) {
            let by_itself = self.play_in(&tree, &all, order)?;
            by_itself.is_the_same_in(&mixed, order, numbers)?;
        }
        counted::numbers(self.report, &all, &mixed);
        let refused = |order: &Order| order.iter().any(|&place| !mixed.is_accepted(place));
        if alone.iter().all(refused) {
            self.report
                .add_times("two people, something refused to each", 1);
        }
        if inside.iter().all(|numbers| numbers.len() > 1) {
            self.report
                .add_times("two people, something below each folder", 1);
        }
        self.report.add_times("two people", 1);
        Ok(())
    }

    /// What one of them does; at times first to the limit of lists.
    fn doings(&mut self, found: &Found, numbers: &[usize]) -> Vec<Change> {
        let wanted = FEWEST + self.random.below(MOST - FEWEST + 1);
        let mut doings = Vec::new();
        if self.random.chance(1, 3) {
            let number = *self.random.pick(numbers);
            doings = changes::of_its_own(&mut self.random, found, number);
        }
        while doings.len() < wanted {
            let number = *self.random.pick(numbers);
            doings.push(self.any(&found.objects, number));
        }
        doings
    }
}

/// Each keeps the order of each person's changes.
fn two_mixes(random: &mut Random, alone: &[Order; 2]) -> [Order; 2] {
    let one = mix(random, alone);
    loop {
        let other = mix(random, alone);
        if one != other {
            return [one, other];
        }
    }
}

fn mix(random: &mut Random, alone: &[Order; 2]) -> Order {
    let [mut first, mut second] = alone.each_ref().map(|order| order.as_slice());
    let mut mixed = Order::new();
    while first.len() + second.len() > 0 {
        let next = if random.chance(first.len(), first.len() + second.len()) {
            &mut first
        } else {
            &mut second
        };
        mixed.push(next[0]);
        *next = &next[1..];
    }
    mixed
}

#[cfg(test)]
mod tests {
    use super::*;

    #[test]
    fn mixes_keep_each_order() {
        let mut random = Random::new(1);
        let alone = [vec![0, 1, 2], vec![3, 4]];
        for _ in 0..40 {
            for mixed in two_mixes(&mut random, &alone) {
                for order in &alone {
                    let kept = mixed.iter().copied().filter(|place| order.contains(place));
                    assert_eq!(kept.collect::<Order>(), *order);
                }
                assert_eq!(mixed.len(), 5);
            }
        }
    }
}
