//! A list is read, its entries' offsets into a row of its own length.

use std::hint::black_box;

use super::{Repeated, Side, lists};
use crate::capi::{self, WhenEmpty};
use second::reading;

pub struct Reading {
    side: Side,
    list: Vec<u8>,
    row: Vec<u16>,
    answer: [u32; 8],
}

impl Reading {
    /// With so many spare bytes behind them.
    pub fn of_entries(side: Side, entries: usize, spare: usize) -> Reading {
        let list = lists::plain(entries, lists::Inheritable::All, spare);
        Reading::of_list(side, list, entries)
    }

    pub fn of_list(side: Side, list: Vec<u8>, entries: usize) -> Reading {
        Reading {
            side,
            list,
            row: vec![0; entries],
            answer: [0; 8],
        }
    }
}

impl Repeated for Reading {
    fn call(&mut self) {
        let list = black_box(&self.list);
        match self.side {
            Side::Library => {
                capi::read(list, &mut self.row, &mut self.answer, WhenEmpty::Null);
            }
            Side::Second => self.answer = reading::read(list, &mut self.row).eight(),
        }
        black_box(self);
    }

    fn outcome(&self) -> ([u32; 8], String) {
        (self.answer, format!("{:?}", self.row))
    }
}
