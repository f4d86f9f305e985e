//! Trees on which orders are tried: filled, changed and undone, with refused
//! calls between.

use super::course::Course;
use crate::deep::generate::Maker;
use crate::report::Report;
use crate::tree::check::Both;
use crate::tree::generate::{change, room_length, start_of};
use second::random::Random;
use second::tree::{Add, Call, Change, MOST_OBJECTS, Object, traits};

/// Larger trees have each list worked out once.
const FEW: usize = 8;
/// So many objects are asked for at least.
const LEAST: usize = 4;

pub fn tree(random: &mut Random, report: &mut Report, maker: &Maker) -> Result<Course, String> {
    let (objects, steps) = limits(random);
    let start = start_of(random, &maker.palette, objects as u32, steps as u32);
    let room_length = room_length(random, &start);
    let both = if objects > FEW {
        Both::before_large_start(random, room_length)
    } else {
        Both::before_start(random, room_length)
    };
    let mut begun = Begun {
        random,
        report,
        maker,
        most: objects,
        course: Course::before(both),
    };
    begun.play(Call::Start {
        room_length: room_length as u32,
        start,
    })?;
    begun.fill()?;
    begun.change()?;
    Ok(begun.course)
}

/// Of objects and of kept steps. Adds fill a short row of steps.
fn limits(random: &mut Random) -> (usize, usize) {
    match random.below(40) {
        0 => (MOST_OBJECTS as usize, *random.pick(&[0, 16, 64])),
        1 => (LEAST + random.below(61), random.below(65)),
        2..8 => (16, 16),
        _ => {
            let steps = *random.pick(&[0, 1, 1, 2, 2, 3, 4, 6, 8, 16, 20]);
            (LEAST + random.below(9), steps)
        }
    }
}

struct Begun<'a> {
    random: &'a mut Random,
    report: &'a mut Report,
    maker: &'a Maker,
    most: usize,
    course: Course,
}

impl Begun<'_> {
    fn play(&mut self, call: Call) -> Result<(), String> {
        self.course.ask(self.random, self.report, call).map(|_| ())
    }

    /// Up to the limit, or not quite.
    fn fill(&mut self) -> Result<(), String> {
        let wanted = (self.most - self.random.below(1 + self.most / 3)).max(LEAST);
        loop {
            let standing = self.course.objects();
            if standing.len() >= wanted {
                return Ok(());
            }
            // One that isn't spoilt after all might be a root with no place below.
            if !standing.is_empty() && self.random.chance(1, 12) {
                let spoilt = self.maker.spoilt(self.random, &standing);
                self.play(Call::Change(spoilt))?;
                continue;
            }
            let add = self.add(&standing);
            self.play(Call::Change(Change::Add(add)))?;
            if self.course.objects().len() == standing.len() {
                let add = self.maker.plain_add(self.random, &standing);
                self.play(Call::Change(Change::Add(add)))?;
            }
        }
    }

    /// The root is a container, so that others find a parent.
    fn add(&mut self, standing: &[Object]) -> Add {
        if self.maker.loaded_from < MOST_OBJECTS as usize {
            return self.maker.add(self.random, standing);
        }
        let parent = self.maker.parent(self.random, standing);
        let mut add = self.maker.palette.add(self.random, standing);
        if standing.is_empty() {
            add.traits |= traits::CONTAINER;
        }
        Add { parent, ..add }
    }

    fn change(&mut self) -> Result<(), String> {
        for _ in 0..self.random.below(12) {
            let standing = self.course.objects();
            let call = match self.random.below(8) {
                0 | 1 => Call::Undo,
                2..5 => Call::Change(self.maker.change(self.random, &standing)),
                _ => {
                    let palette = &self.maker.palette;
                    Call::Change(change(self.random, palette, &standing, self.most))
                }
            };
            self.play(call)?;
        }
        Ok(())
    }
}
