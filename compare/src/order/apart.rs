//! Which objects are apart: neither is the other nor above it. A number that
//! no object has is apart from all others.

use second::random::Random;
use second::tree::{NO_PARENT, Object};

/// Of the objects that are chosen, one in so many doesn't stand.
const UNKNOWN_ONE_IN: usize = 16;

/// The object, then those above it up to the root.
fn upwards(objects: &[Object], number: usize) -> impl Iterator<Item = usize> {
    std::iter::successors(Some(number), |&number| objects[number].parent)
}

pub fn above(objects: &[Object], number: usize) -> Vec<usize> {
    upwards(objects, number).skip(1).collect()
}

/// Whether it is the folder or lies below it.
fn is_within(objects: &[Object], folder: usize, number: usize) -> bool {
    upwards(objects, number).any(|passed| passed == folder)
}

pub fn within(objects: &[Object], folder: usize) -> Vec<usize> {
    (0..objects.len())
        .filter(|&number| is_within(objects, folder, number))
        .collect()
}

pub fn are_apart(objects: &[Object], one: usize, other: usize) -> bool {
    if one.max(other) >= objects.len() {
        return one != other;
    }
    !is_within(objects, one, other) && !is_within(objects, other, one)
}

/// Of objects that stand.
fn pairs(objects: &[Object]) -> Vec<[usize; 2]> {
    let all = (0..objects.len()).flat_map(|one| (0..one).map(move |other| [other, one]));
    all.filter(|&[one, other]| are_apart(objects, one, other))
        .collect()
}

/// At least two, each apart from all others, and at most so many.
pub fn some(random: &mut Random, objects: &[Object], most: usize) -> Vec<usize> {
    let mut chosen = some_standing(random, objects, most);
    for place in 0..chosen.len() {
        let unknown = unknown(random, objects.len());
        if random.chance(1, UNKNOWN_ONE_IN) && !chosen.contains(&unknown) {
            chosen[place] = unknown;
        }
    }
    while chosen.len() < 2 {
        let unknown = unknown(random, objects.len());
        if !chosen.contains(&unknown) {
            chosen.push(unknown);
        }
    }
    chosen
}

/// One or none where no two are apart.
fn some_standing(random: &mut Random, objects: &[Object], most: usize) -> Vec<usize> {
    let order = any_order(random, objects.len());
    let Some(pair) = two_standing(random, objects) else {
        return order.into_iter().take(1).collect();
    };
    let mut chosen = pair.to_vec();
    for number in order {
        let is_apart = |&from: &usize| are_apart(objects, from, number);
        if chosen.len() < most && chosen.iter().all(is_apart) {
            chosen.push(number);
        }
    }
    chosen
}

fn two_standing(random: &mut Random, objects: &[Object]) -> Option<[usize; 2]> {
    if random.chance(1, 3) {
        return folders(random, objects);
    }
    let pairs = pairs(objects);
    (!pairs.is_empty()).then(|| *random.pick(&pairs))
}

fn unknown(random: &mut Random, standing: usize) -> usize {
    match random.below(4) {
        0 => standing,
        1 => *random.pick(&[64, 0xFE, 0xFF, 0x100, NO_PARENT as usize]),
        _ => standing.max(random.word() as usize >> random.below(28)),
    }
}

/// Two that are apart, with something below each in most cases.
pub fn folders(random: &mut Random, objects: &[Object]) -> Option<[usize; 2]> {
    let pairs = pairs(objects);
    let has_some = |folder: usize| within(objects, folder).len() > 1;
    let telling: Vec<[usize; 2]> = pairs
        .iter()
        .copied()
        .filter(|&[one, other]| has_some(one) && has_some(other))
        .collect();
    if !telling.is_empty() && random.chance(7, 8) {
        return Some(*random.pick(&telling));
    }
    (!pairs.is_empty()).then(|| *random.pick(&pairs))
}

/// So many numbers from 0 on, shuffled.
pub fn any_order(random: &mut Random, count: usize) -> Vec<usize> {
    let mut order: Vec<usize> = (0..count).collect();
    for place in (1..count).rev() {
        order.swap(place, random.below(place + 1));
    }
    order
}

#[cfg(test)]
mod tests {
    use super::*;

    /// 0 over 1 and 2, 1 over 3, 3 over 4, 2 over 5.
    fn tree() -> Vec<Object> {
        let parents = [None, Some(0), Some(0), Some(1), Some(3), Some(2)];
        let object = |parent| Object {
            parent,
            is_container: true,
            is_protected: false,
            object_type: [0; 16],
            owner: Vec::new(),
            group: Vec::new(),
            own_list: None,
        };
        parents.map(object).to_vec()
    }

    #[test]
    fn apart_is_neither_the_other_nor_above_it() {
        let tree = tree();
        let apart = [[1, 2], [1, 5], [2, 3], [2, 4], [3, 5], [4, 5]];
        for one in 0..tree.len() {
            for other in 0..tree.len() {
                let expected = apart.contains(&[one.min(other), one.max(other)]);
                assert_eq!(are_apart(&tree, one, other), expected, "{one} {other}");
            }
        }
        assert_eq!(pairs(&tree).len(), apart.len());
    }

    #[test]
    fn what_does_not_stand_is_apart_from_all_others() {
        let tree = tree();
        assert!(are_apart(&tree, 0, 6));
        assert!(are_apart(&tree, 64, 6));
        assert!(!are_apart(&tree, 6, 6));
    }

    #[test]
    fn a_folder_is_within_itself() {
        assert_eq!(within(&tree(), 1), [1, 3, 4]);
        assert_eq!(within(&tree(), 5), [5]);
        assert_eq!(above(&tree(), 4), [3, 1, 0]);
    }

    #[test]
    fn those_chosen_are_apart_each_from_each() {
        let mut random = Random::new(1);
        for standing in 0..=tree().len() {
            let tree = &tree()[..standing];
            for most in 2..7 {
                let chosen = some(&mut random, tree, most);
                assert!((2..=most).contains(&chosen.len()));
                for (place, &one) in chosen.iter().enumerate() {
                    let others = &chosen[place + 1..];
                    assert!(others.iter().all(|&other| are_apart(tree, one, other)));
                }
            }
        }
    }
}
