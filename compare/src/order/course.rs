//! A tree on both sides with the calls on it so far. A copy goes on by itself.

use crate::report::Report;
use crate::tree::check::{Both, Given, Ours};
use crate::tree::told::Told;
use second::random::Random;
use second::room::Found;
use second::tree::{Call, LONGEST_LIST, Object, Part};

#[derive(Clone)]
pub struct Course {
    both: Both,
    told: Told,
}

/// All that calls tell of a tree.
pub struct Seen {
    /// What the library gave of each object, its parts in turn.
    given: Vec<Vec<Given>>,
    counts: Given,
    /// By the second program: own data, computed lists and how many steps are
    /// kept.
    objects: Vec<Object>,
    lists: Vec<Option<Vec<u8>>>,
    kept: usize,
}

impl Course {
    pub fn before(both: Both) -> Course {
        Course {
            both,
            told: Told::default(),
        }
    }

    pub fn ask(
        &mut self,
        random: &mut Random,
        report: &mut Report,
        call: Call,
    ) -> Result<Given, String> {
        self.told.ask(&mut self.both, random, report, call)
    }

    pub fn found(&self) -> Found {
        self.both.ours.expected().expect("a start was done")
    }

    pub fn objects(&self) -> Vec<Object> {
        self.both.ours.objects()
    }

    pub fn room(&self) -> &[u8] {
        self.both.room()
    }

    /// The calls so far, and what is to be said of them.
    pub fn text(&self, what: &str) -> String {
        self.told.text(what)
    }

    /// Every part of every object, and the counts. The room stays.
    pub fn look(&self, random: &mut Random, report: &mut Report) -> Result<Seen, String> {
        let mut looked_at = self.clone();
        let mut ask = |call| looked_at.ask(random, report, call);
        if let Ours::Large(large) = &self.both.ours {
            large.check_afresh().map_err(|what| self.text(&what))?;
        }
        let found = self.found();
        let mut given = Vec::new();
        for object in 0..found.objects.len() as u32 {
            let parts = Part::ALL.map(|part| Call::Read {
                part,
                object,
                out_length: LONGEST_LIST as u16,
            });
            given.push(parts.into_iter().map(&mut ask).collect::<Result<_, _>>()?);
        }
        Ok(Seen {
            given,
            counts: ask(Call::Counts)?,
            kept: found.steps.len(),
            objects: found.objects,
            lists: found.lists,
        })
    }
}

impl Seen {
    pub fn all(&self) -> Vec<usize> {
        (0..self.given.len()).collect()
    }

    /// The first of these objects that isn't the same, and where.
    pub fn difference(&self, other: &Seen, numbers: &[usize]) -> Option<String> {
        numbers.iter().find_map(|&number| {
            let parts = Part::ALL.iter().zip(&self.given[number]);
            let differing = parts
                .zip(&other.given[number])
                .find_map(|((part, one), other)| (one != other).then_some(part));
            if let Some(part) = differing {
                return Some(format!("{part:?} of object {number}"));
            }
            let same = self.objects[number] == other.objects[number]
                && self.lists[number] == other.lists[number];
            (!same).then(|| format!("object {number} in the second program"))
        })
    }

    /// The number of objects or of kept steps.
    pub fn counts_difference(&self, other: &Seen) -> Option<String> {
        let same = self.counts == other.counts && self.kept == other.kept;
        (!same).then(|| {
            let [one, other] = [self, other].map(|seen| seen.counts.answer);
            format!("counts are {one:?} and {other:?}")
        })
    }
}
