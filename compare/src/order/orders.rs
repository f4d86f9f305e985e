//! Changes played in an order on a copy of a tree, and what tells two orders
//! from each other.

use super::Case;
use super::apart::any_order;
use super::course::{Course, Seen};
use second::random::Random;
use second::tree::{Call, Change};

/// Which change comes first, second and so on; some may be left out.
pub type Order = Vec<usize>;

pub struct Played {
    pub course: Course,
    pub seen: Seen,
    /// Of each change, in whatever order they came; `None` for one left out.
    pub answers: Vec<Option<[u32; 8]>>,
}

/// What shows that two orders aren't the same.
pub struct Shown {
    pub by_answers: Option<String>,
    pub by_trees: Option<String>,
}

impl Case<'_> {
    pub fn play_in(
        &mut self,
        tree: &Course,
        changes: &[Change],
        order: &Order,
    ) -> Result<Played, String> {
        let mut course = tree.clone();
        let mut answers = vec![None; changes.len()];
        for &place in order {
            let call = Call::Change(changes[place].clone());
            let given = course.ask(&mut self.random, self.report, call)?;
            answers[place] = Some(given.answer);
        }
        let seen = course.look(&mut self.random, self.report)?;
        Ok(Played {
            course,
            seen,
            answers,
        })
    }

    pub fn play_both(
        &mut self,
        tree: &Course,
        changes: &[Change],
        orders: &[Order; 2],
    ) -> Result<[Played; 2], String> {
        let [one, other] = orders;
        Ok([
            self.play_in(tree, changes, one)?,
            self.play_in(tree, changes, other)?,
        ])
    }
}

impl Played {
    pub fn is_accepted(&self, place: usize) -> bool {
        self.answers[place].is_some_and(|answer| answer[0] == 0)
    }

    pub fn accepted(&self) -> usize {
        (0..self.answers.len())
            .filter(|&place| self.is_accepted(place))
            .count()
    }

    /// Of all changes and all objects.
    pub fn shown(&self, other: &Played) -> Shown {
        let places: Vec<usize> = (0..self.answers.len()).collect();
        let by_trees = self.seen.difference(&other.seen, &self.seen.all());
        Shown {
            by_answers: self.answers_difference(other, &places),
            by_trees: by_trees.or(self.seen.counts_difference(&other.seen)),
        }
    }

    fn answers_difference(&self, other: &Played, places: &[usize]) -> Option<String> {
        let differing = places
            .iter()
            .find(|&&place| self.answers[place] != other.answers[place])?;
        let [one, other] = [self, other].map(|played| played.answers[*differing]);
        let [one, other] = [one, other].map(Option::unwrap_or_default);
        Some(format!("change {differing} answers {one:?} and {other:?}"))
    }

    /// Order must not show: all is the same. Where no two changes were
    /// accepted the rooms are, byte for byte.
    pub fn is_the_same(&self, other: &Played) -> Result<(), String> {
        let shown = self.shown(other);
        let differs = shown.by_answers.or(shown.by_trees);
        if let Some(what) = differs {
            return Err(self.told(other, &what));
        }
        if self.accepted() < 2 && self.course.room() != other.course.room() {
            return Err(self.told(other, "rooms, though no two changes were accepted"));
        }
        Ok(())
    }

    /// What the other order leaves out must not show in these answers and
    /// objects.
    pub fn is_the_same_in(
        &self,
        other: &Played,
        places: &[usize],
        numbers: &[usize],
    ) -> Result<(), String> {
        let by_answers = self.answers_difference(other, places);
        let differs = by_answers.or(self.seen.difference(&other.seen, numbers));
        differs.map_or(Ok(()), |what| Err(self.told(other, &what)))
    }

    /// With the calls of both.
    fn told(&self, other: &Played, what: &str) -> String {
        let [one, other] = [self, other].map(|played| played.course.text("in order"));
        format!("order shows: {what}: {one}; {other}")
    }
}

/// Two orders that aren't the same.
pub fn two(random: &mut Random, count: usize) -> [Order; 2] {
    let one = any_order(random, count);
    loop {
        let other = any_order(random, count);
        if one != other {
            return [one, other];
        }
    }
}
