//! Two lists are compared.

use std::hint::black_box;

use super::access::account;
use super::{Repeated, Side};
use crate::capi::lending::Lending;
use crate::capi::{self, WhenEmpty};
use second::cases::build::{EntryPlan, good_list};
use second::sidebyside;

/// What the second list is to the first.
#[derive(Clone, Copy)]
pub enum Second {
    Equal,
    /// Without the entry in the middle.
    Removed,
    /// As many entries, none of them the same.
    Apart,
}

impl Second {
    pub fn by_name(name: &str) -> Option<Second> {
        match name {
            "equal" => Some(Second::Equal),
            "removed" => Some(Second::Removed),
            "apart" => Some(Second::Apart),
            _ => None,
        }
    }

    /// Its entries' numbers; those of the first count from 0.
    fn numbers(self, entries: usize) -> Vec<usize> {
        match self {
            Second::Equal => (0..entries).collect(),
            Second::Removed => (0..entries).filter(|&n| n != entries / 2).collect(),
            Second::Apart => (entries..2 * entries).collect(),
        }
    }

    /// Of the row.
    fn elements(self, entries: usize) -> usize {
        match self {
            Second::Equal => 0,
            Second::Removed => 1,
            Second::Apart => 2 * entries,
        }
    }
}

pub struct Comparing {
    side: Side,
    first: Vec<u8>,
    second: Vec<u8>,
    row: Vec<u32>,
    answer: [u32; 8],
}

impl Comparing {
    /// The first list has so many, and the row is just long enough.
    pub fn of_entries(side: Side, entries: usize, second: Second) -> Comparing {
        Comparing {
            side,
            first: allowing(Second::Equal.numbers(entries)),
            second: allowing(second.numbers(entries)),
            row: vec![0; second.elements(entries)],
            answer: [0; 8],
        }
    }
}

/// Each allows an account of that number, in 36 bytes.
fn allowing(numbers: Vec<usize>) -> Vec<u8> {
    let plans = numbers
        .into_iter()
        .map(|number| EntryPlan::plain(0, 0, account(number as u32)));
    good_list(&plans.collect::<Vec<_>>())
}

impl Repeated for Comparing {
    fn call(&mut self) {
        let (first, second) = black_box((&self.first, &self.second));
        let (row, answer) = (&mut self.row, &mut self.answer);
        match self.side {
            Side::Library => {
                let lending = Lending::apart(WhenEmpty::Null);
                capi::sidebyside::compare(first, second, row, answer, &lending);
            }
            Side::Second => *answer = sidebyside::compare(first, second, row),
        }
        black_box(self);
    }

    fn outcome(&self) -> ([u32; 8], String) {
        (self.answer, format!("{:?}", self.row))
    }
}
