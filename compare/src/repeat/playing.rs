//! A script is played whole.

use std::hint::black_box;

use super::{Repeated, Side, lists};
use crate::capi::{self, WhenEmpty};
use second::cases::build::nt_sid;
use second::cases::tree::make::{
    CONTAINER, LEAF, below, one_entry, root, set_list, set_mark, set_owner,
};
use second::script::{HEAD, MOST_OBJECTS, play, play_watched, record};
use second::tree::{Call, Change};

/// The longest listing fits.
const OUT: usize = 203;
/// Children of each container.
const CHILDREN: u32 = 4;
/// Of the root's own list.
const ENTRIES: usize = 8;
/// Objects from here on are no containers.
const FIRST_LEAF: u32 = 4;

pub struct Playing {
    side: Side,
    script: Vec<u8>,
    out: [u8; OUT],
    answer: [u32; 8],
}

impl Playing {
    pub fn of_records(side: Side, records: usize) -> Playing {
        let script = script(records);
        check(&script, records);
        Playing {
            side,
            script,
            out: [0; OUT],
            answer: [0; 8],
        }
    }
}

impl Repeated for Playing {
    fn call(&mut self) {
        let script = black_box(&self.script);
        let answer = &mut self.answer;
        match self.side {
            Side::Library => {
                capi::script::play(script, &mut self.out, answer, WhenEmpty::Null);
            }
            Side::Second => *answer = play(script).answer(&mut self.out).eight(),
        }
        black_box(self);
    }

    fn outcome(&self) -> ([u32; 8], String) {
        (self.answer, format!("{:?}", self.out))
    }
}

/// Sixteen adds, then changes of each kind, undos, and now and then a record
/// that is refused.
fn script(records: usize) -> Vec<u8> {
    let adds = (0..MOST_OBJECTS as u32).map(add);
    let later = (0..).map(later);
    let calls = adds.chain(later).take(records);
    let mut script = HEAD.to_vec();
    script.extend(calls.flat_map(|call| record(&call)));
    script
}

fn add(number: u32) -> Call {
    let kind = if number < FIRST_LEAF { CONTAINER } else { LEAF };
    Call::Change(Change::Add(match number {
        0 => root(kind).with_list(lists::mixed(ENTRIES, 100)),
        _ => below((number - 1) / CHILDREN, kind),
    }))
}

/// Ten records make a round: five changes, four undos, one that is refused.
fn later(turn: u32) -> Call {
    let round = turn / 10;
    let object = 1 + round % (MOST_OBJECTS as u32 - 1);
    Call::Change(match turn % 10 {
        0 => set_list(0, lists::mixed(ENTRIES, 100 + round)),
        1 => set_owner(object, nt_sid(&[21, round]), nt_sid(&[32])),
        2 => set_list(object, one_entry(0x03, round)),
        4 => set_mark(object, round.is_multiple_of(2)),
        6 => set_mark(MOST_OBJECTS as u32, true),
        7 => set_list(0, lists::mixed(ENTRIES / 2, 100 + round)),
        _ => return Call::Undo,
    })
}

/// Nine records of ten are accepted.
fn check(script: &[u8], records: usize) {
    let (mut all, mut refused) = (0, 0);
    play_watched(script, |_, outcome| {
        all += 1;
        refused += usize::from(outcome.is_refused());
    });
    assert_eq!(all, records);
    assert!(refused * 10 <= records, "{refused} are refused");
}
