//! Each bit by itself, all together, and masks split over entries.

use super::make::{MOST_WANTED, READ, allow, deny, of_entries, of_type};
use crate::access::Question;
use crate::cases::build::EntryPlan;

/// Those that may be wanted.
const BITS: u32 = 28;

pub fn questions() -> Vec<Question> {
    let mut questions = each_bit();
    questions.extend(all_but_one());
    questions.extend(split_over_entries());
    questions.extend(generic_and_reserved_bits());
    questions.extend(near_bits());
    questions
}

/// In a mask by itself, in one of all bits, and missing from it.
fn each_bit() -> Vec<Question> {
    let mut questions = Vec::new();
    for bit in (0..BITS).map(|bit| 1 << bit) {
        for mask in [bit, u32::MAX, !bit] {
            questions.push(of_entries(&[allow(mask)], bit));
            questions.push(of_entries(&[deny(mask), allow(u32::MAX)], bit));
        }
    }
    questions
}

/// All are wanted, and one isn't granted, or is denied before.
fn all_but_one() -> Vec<Question> {
    let mut questions = vec![
        of_entries(&[allow(MOST_WANTED)], MOST_WANTED),
        of_entries(&[allow(u32::MAX)], MOST_WANTED),
        of_entries(&[deny(!MOST_WANTED), allow(MOST_WANTED)], MOST_WANTED),
    ];
    for bit in (0..BITS).map(|bit| 1 << bit) {
        let granted = allow(MOST_WANTED & !bit);
        questions.push(of_entries(std::slice::from_ref(&granted), MOST_WANTED));
        questions.push(of_entries(&[granted, allow(bit)], MOST_WANTED));
        questions.push(of_entries(&[deny(bit), allow(MOST_WANTED)], MOST_WANTED));
        questions.push(of_entries(&[allow(MOST_WANTED), deny(bit)], MOST_WANTED));
    }
    questions
}

/// Every n-th bit in each of n entries: all of them, and with one left out or
/// made a deny.
fn split_over_entries() -> Vec<Question> {
    let mut questions = Vec::new();
    for parts in [2, 3, 4, 7] {
        let plans: Vec<EntryPlan> = (0..parts)
            .map(|part| {
                let bits = (0..32).filter(|bit| bit % parts == part);
                allow(bits.map(|bit| 1 << bit).sum())
            })
            .collect();
        questions.push(of_entries(&plans, MOST_WANTED));
        for place in 0..plans.len() {
            let mut fewer = plans.clone();
            fewer.remove(place);
            let mut denied = plans.clone();
            denied[place] = deny(plans[place].mask);
            for plans in [fewer, denied] {
                questions.push(of_entries(&plans, MOST_WANTED));
                questions.push(of_entries(&plans, plans[0].mask & MOST_WANTED));
            }
        }
    }
    questions
}

/// Generic bits of an entry stand for nothing else; reserved ones are bits
/// like others.
fn generic_and_reserved_bits() -> Vec<Question> {
    let generic = [
        0x1000_0000,
        0x2000_0000,
        0x4000_0000,
        0x8000_0000,
        0xF000_0000,
    ];
    let reserved = [0x0C00_0000, 0x0100_0000, 0x0200_0000, 0x0020_0000];
    let mut questions = Vec::new();
    for mask in generic {
        for wanted in [1, READ, MOST_WANTED] {
            questions.push(of_entries(&[allow(mask)], wanted));
            questions.push(of_entries(&[allow(mask | wanted)], wanted));
            questions.push(of_entries(&[deny(mask), allow(wanted)], wanted));
        }
    }
    for wanted in reserved {
        for mask in [wanted, !wanted, u32::MAX] {
            questions.push(of_entries(&[allow(mask)], wanted));
            questions.push(of_entries(&[deny(mask), allow(wanted)], wanted));
        }
    }
    questions
}

/// Two bits wanted, of which entries of each kind have one, the other or both.
fn near_bits() -> Vec<Question> {
    let mut questions = Vec::new();
    for (low, high) in [(0, 1), (7, 8), (15, 16), (23, 24), (26, 27), (0, 27)] {
        let (low, high) = (1 << low, 1 << high);
        for mask in [low, high, low | high] {
            for entry_type in [0, 1] {
                let plans = [of_type(entry_type, mask), allow(low)];
                questions.push(of_entries(&plans, low | high));
            }
        }
    }
    questions
}
