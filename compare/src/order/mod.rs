//! Changes to objects apart, in two orders: neither object is the other nor
//! above it. Order must not show, neither in an answer nor in what is read
//! back; and where objects aren't apart it is seen to show.

mod apart;
mod begun;
mod changes;
mod control;
mod counted;
mod course;
mod orders;
mod pairs;
mod people;

use crate::deep::generate::{Maker, Profile};
use crate::floors;
use crate::report::Report;
use crate::tree::varied;
use course::Course;
use second::cases::tree::palette::Palette;
use second::random::Random;
use second::tree::MOST_OBJECTS;

/// About one tree.
const QUESTIONS: usize = 3;
/// Of changes that are made in two orders.
const MOST_APART: usize = 6;

/// Each case draws from a generator of its own, so that it stays the same
/// whatever the others find.
pub fn compare(cases: usize, seed: u64) -> Report {
    let mut seeds = Random::new(seed);
    let mut report = Report::new("order", &floors::ORDER);
    for number in 1..=cases {
        let random = Random::new(seeds.draw());
        let difference = one(random, &mut report).err();
        report.add_case(difference.map(|what| format!("case {number}: {what}")));
    }
    report
}

fn one(mut random: Random, report: &mut Report) -> Result<(), String> {
    let maker = maker(&mut random);
    let tree = begun::tree(&mut random, report, &maker)?;
    counted::tree(report, &tree.found());
    let mut case = Case {
        random,
        report,
        maker,
        tree,
    };
    for _ in 0..QUESTIONS {
        match case.random.below(16) {
            0..8 => case.in_two_orders(2)?,
            8 | 9 => {
                let most = 3 + case.random.below(MOST_APART - 2);
                case.in_two_orders(most)?;
            }
            10..13 => case.of_two_people()?,
            13 | 14 => case.one_above_the_other()?,
            _ => case.one_object_twice()?,
        }
    }
    Ok(())
}

/// In every other case lists are long, and leave little room for what comes
/// down.
fn maker(random: &mut Random) -> Maker {
    let loaded = random.chance(1, 2);
    let palette = match loaded {
        true => Palette::of_weight(random, true),
        false => Palette::draw(random),
    };
    Maker {
        profile: *random.pick(&[Profile::Wide, Profile::Mixed, Profile::Mixed]),
        palette: varied(random, palette),
        loaded_from: match loaded {
            true => 1 + random.below(4),
            false => MOST_OBJECTS as usize,
        },
    }
}

struct Case<'a> {
    random: Random,
    report: &'a mut Report,
    maker: Maker,
    /// Each question is about copies of it.
    tree: Course,
}
