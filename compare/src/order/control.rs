//! Changes to objects that aren't apart, by the same test: there order shows,
//! so the test is seen to tell.

use super::course::Course;
use super::orders::two;
use super::{Case, apart, changes};
use second::tree::Change;

impl Case<'_> {
    /// A folder and something below it: what comes down to that may change,
    /// and one may leave no room for the other.
    pub fn one_above_the_other(&mut self) -> Result<(), String> {
        let mut tree = self.tree.clone();
        let objects = tree.objects();
        if objects.len() < 2 {
            return Ok(());
        }
        let lower = 1 + self.random.below(objects.len() - 1);
        let upper = *self.random.pick(&apart::above(&objects, lower));
        let changes = match self.each_at_the_limit(&tree, [upper, lower]) {
            Some(changes) => changes,
            None => self.changes_of(&mut tree, &[upper, lower])?,
        };
        self.count_shown(
            &tree,
            &changes,
            [
                "one above the other",
                "one above the other: order shows in an answer",
                "one above the other: order shows in the tree",
            ],
        )
    }

    /// The later change stays.
    pub fn one_object_twice(&mut self) -> Result<(), String> {
        let mut tree = self.tree.clone();
        let objects = tree.objects();
        if objects.is_empty() {
            return Ok(());
        }
        let number = self.random.below(objects.len());
        let changes = self.changes_of(&mut tree, &[number, number])?;
        self.count_shown(
            &tree,
            &changes,
            [
                "one object twice",
                "one object twice: order shows in an answer",
                "one object twice: order shows in the tree",
            ],
        )
    }

    /// Now and then: each is done alone, and together they may be too much.
    fn each_at_the_limit(&mut self, tree: &Course, numbers: [usize; 2]) -> Option<Vec<Change>> {
        if self.random.chance(1, 2) {
            return None;
        }
        let found = tree.found();
        numbers
            .map(|number| changes::just_done(&mut self.random, &found, number))
            .into_iter()
            .collect()
    }

    /// That it was tried, and where order shows. Library and second program
    /// have to agree all the same.
    fn count_shown(
        &mut self,
        tree: &Course,
        changes: &[Change],
        [tried, in_an_answer, in_the_tree]: [&'static str; 3],
    ) -> Result<(), String> {
        let orders = two(&mut self.random, changes.len());
        let [one, other] = self.play_both(tree, changes, &orders)?;
        let shown = one.shown(&other);
        self.report.add_times(tried, 1);
        if shown.by_answers.is_some() {
            self.report.add_times(in_an_answer, 1);
        }
        if shown.by_trees.is_some() {
            self.report.add_times(in_the_tree, 1);
        }
        Ok(())
    }
}
