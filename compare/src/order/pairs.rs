//! Two changes to objects apart, or more, in two orders; and undo behind them.

use super::course::Course;
use super::orders::{Played, two};
use super::{Case, apart, counted};
use second::tree::{Call, Change};

impl Case<'_> {
    pub fn in_two_orders(&mut self, most: usize) -> Result<(), String> {
        let mut tree = self.tree.clone();
        let numbers = apart::some(&mut self.random, &tree.objects(), most);
        let changes = self.changes_of(&mut tree, &numbers)?;
        let orders = two(&mut self.random, changes.len());
        let played = self.play_both(&tree, &changes, &orders)?;
        let [one, other] = &played;
        one.is_the_same(other)?;
        counted::answers(self.report, &tree.found(), &changes, one);
        if let [first, second] = &changes[..] {
            self.count_pair(&tree, [first, second], one);
            if one.accepted() == 2 {
                self.undo_both(&tree, played)?;
            }
        } else {
            self.report.add_times("more than two apart", 1);
        }
        Ok(())
    }

    fn count_pair(&mut self, tree: &Course, changes: [&Change; 2], played: &Played) {
        self.report.add_times("pairs", 1);
        let outcome = match played.accepted() {
            0 => "both refused",
            1 => "one refused",
            _ => {
                counted::accepted(self.report, &tree.found(), changes);
                "both accepted"
            }
        };
        self.report.add_times(outcome, 1);
    }

    /// Undo takes the later change back, which is another one in each order:
    /// there order shows. Where both are taken back the tree is as it was.
    fn undo_both(&mut self, tree: &Course, played: [Played; 2]) -> Result<(), String> {
        let before = tree.look(&mut self.random, self.report)?;
        let mut courses = played.map(|played| played.course);
        for times in 1..=tree.found().limits.steps.min(2) {
            for course in &mut courses {
                course.ask(&mut self.random, self.report, Call::Undo)?;
            }
            let [one, other] = &courses;
            let one_seen = one.look(&mut self.random, self.report)?;
            let other_seen = other.look(&mut self.random, self.report)?;
            if times == 1 {
                if one_seen.difference(&other_seen, &before.all()).is_some() {
                    self.report.add_times("undo after both orders differs", 1);
                }
                continue;
            }
            for (course, seen) in [(one, one_seen), (other, other_seen)] {
                if let Some(what) = seen.difference(&before, &before.all()) {
                    return Err(course.text(&format!("not taken back: {what}")));
                }
            }
            self.report
                .add_times("both undone, the tree is as it was", 1);
        }
        Ok(())
    }
}
