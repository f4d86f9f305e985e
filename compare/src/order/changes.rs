//! Changes of one object: its list, its mark, its owner and group.

use super::{Case, apart};
use crate::deep::generate::refused_list;
use crate::deep::press;
use crate::order::course::Course;
use crate::tree::spoil;
use second::random::Random;
use second::room::Found;
use second::tree::{Call, Change, MOST_OBJECTS, Object};

/// Of changes whose number stands, one in so many is at the limit of lists.
const PRESSED_ONE_IN: usize = 4;

impl Case<'_> {
    /// One change of each of these objects. Some are preceded by others that
    /// bring lists to their limit; these are made here.
    pub fn changes_of(
        &mut self,
        tree: &mut Course,
        numbers: &[usize],
    ) -> Result<Vec<Change>, String> {
        let mut changes = Vec::new();
        for &number in numbers {
            let found = tree.found();
            let stands = number < found.objects.len();
            let mut pressed = if stands && self.random.chance(1, PRESSED_ONE_IN) {
                at_the_limit(&mut self.random, &found, number)
            } else {
                Vec::new()
            };
            let Some(last) = pressed.pop() else {
                changes.push(self.any(&found.objects, number));
                continue;
            };
            for first in pressed {
                tree.ask(&mut self.random, self.report, Call::Change(first))?;
            }
            self.report.add_times("at the limit of lists", 1);
            changes.push(last);
        }
        Ok(changes)
    }

    /// Most of them good in themselves.
    pub fn any(&mut self, objects: &[Object], number: usize) -> Change {
        let mut change = self.but_no_add(objects);
        if self.random.chance(1, 6) {
            match &mut change {
                Change::SetList { has_list, list, .. } => {
                    *has_list = 1;
                    *list = refused_list(&mut self.random);
                }
                _ => spoil(&mut self.random, &mut change),
            }
        }
        aimed(change, number)
    }

    fn but_no_add(&mut self, objects: &[Object]) -> Change {
        loop {
            let change = if self.random.chance(1, 2) {
                self.maker.change(&mut self.random, objects)
            } else {
                let most = MOST_OBJECTS as usize;
                self.maker.palette.change(&mut self.random, objects, most)
            };
            if !matches!(change, Change::Add(_)) {
                return change;
            }
        }
    }
}

/// Changes of this object alone of which the last is refused, since a list is
/// a little too long; all others are done. Empty where there are none.
pub fn of_its_own(random: &mut Random, found: &Found, number: usize) -> Vec<Change> {
    if random.chance(2, 3) {
        press::by_list(random, found, number)
    } else {
        press::by_owner(random, found, number)
    }
}

/// The longest list that this object can be given.
pub fn just_done(random: &mut Random, found: &Found, number: usize) -> Option<Change> {
    press::by_list(random, found, number).into_iter().next()
}

/// As `of_its_own`, where others above may be changed first; or the last is
/// one that is just done.
fn at_the_limit(random: &mut Random, found: &Found, number: usize) -> Vec<Change> {
    let above = apart::above(&found.objects, number);
    let object = &found.objects[number];
    let keeps_out = object.is_protected && object.own_list.is_some();
    if keeps_out && !above.is_empty() && random.chance(3, 4) {
        let above = *random.pick(&above);
        return press::by_mark(random, found, above, number);
    }
    let mut changes = of_its_own(random, found, number);
    if random.chance(1, 2) {
        changes.pop();
    }
    changes
}

fn aimed(mut change: Change, number: usize) -> Change {
    match &mut change {
        Change::SetList { object, .. }
        | Change::SetMark { object, .. }
        | Change::SetOwner { object, .. } => *object = number as u32,
        Change::Add(_) => unreachable!("an add is no change of an object that stands"),
    }
    change
}
