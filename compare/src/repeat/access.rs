//! Whether a person may open, and one step through a list.

use std::hint::black_box;

use super::{Repeated, Side};
use crate::capi::lending::Lending;
use crate::capi::{self, WhenEmpty};
use second::access::{self, Question};
use second::cases::build::{EntryPlan, good_list, nt_sid};

const READ: u32 = 0x0002_0000;
/// Held accounts count from here, those of entries from 0.
const FIRST_HELD: u32 = 1_000;

/// One of a domain's, in 28 bytes.
pub fn account(number: u32) -> Vec<u8> {
    nt_sid(&[21, 1_004_336_348, 1_177_238_915, 682_003_330, number])
}

/// Each allows an account to read.
fn accounts(entries: usize) -> Vec<EntryPlan> {
    let plans = (0..entries).map(|number| EntryPlan {
        mask: READ,
        ..EntryPlan::plain(0, 0, account(number as u32))
    });
    plans.collect()
}

pub struct Opening {
    side: Side,
    question: Question,
    answer: [u32; 8],
}

impl Opening {
    /// Only the last entry's account is held, as the last one.
    pub fn of_entries(side: Side, entries: usize, held: usize) -> Opening {
        let others = (1..held as u32).map(|number| account(FIRST_HELD + number));
        let last = account(entries as u32 - 1);
        let held: Vec<Vec<u8>> = others.chain([last]).collect();
        let question = Question {
            has_list: 1,
            list: good_list(&accounts(entries)),
            object_type: [0; 16],
            held: held.concat(),
            wanted: READ,
        };
        assert_eq!(access::may_open(&question)[3], 1, "the last entry allows");
        Opening {
            side,
            question,
            answer: [0; 8],
        }
    }
}

impl Repeated for Opening {
    fn call(&mut self) {
        let question = black_box(&self.question);
        match self.side {
            Side::Library => {
                let lending = Lending::apart(WhenEmpty::Null);
                capi::access::may_open(question, &mut self.answer, &lending);
            }
            Side::Second => self.answer = access::may_open(question),
        }
        black_box(self);
    }

    fn outcome(&self) -> ([u32; 8], String) {
        (self.answer, String::new())
    }
}

pub struct Stepping {
    side: Side,
    list: Vec<u8>,
    place: u32,
    entry: [u32; 8],
    answer: [u32; 8],
}

impl Stepping {
    /// To the last of them.
    pub fn of_entries(side: Side, entries: usize) -> Stepping {
        let plans = accounts(entries);
        let list = good_list(&plans);
        let last = plans.last().map_or(0, EntryPlan::size);
        Stepping {
            side,
            place: (list.len() - last) as u32,
            list,
            entry: [0; 8],
            answer: [0; 8],
        }
    }
}

impl Repeated for Stepping {
    fn call(&mut self) {
        let (list, place) = black_box((&self.list, self.place));
        match self.side {
            Side::Library => {
                let lending = Lending::apart(WhenEmpty::Null);
                let (entry, answer) = (&mut self.entry, &mut self.answer);
                capi::access::step(list, place, entry, answer, &lending);
            }
            Side::Second => (self.answer, self.entry) = access::step(list, place),
        }
        black_box(self);
    }

    fn outcome(&self) -> ([u32; 8], String) {
        (self.answer, format!("{:?}", self.entry))
    }
}
