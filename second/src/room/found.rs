//! A tree found in a room, reached by calls or not, on which calls go on.

use crate::answer::Answer;
use crate::tree::{
    Calls, Change, Limits, Object, Refused, Settings, Tree, all_lists, apply, list_answer,
};

/// What undo puts back.
#[derive(Clone, Debug, PartialEq, Eq)]
pub enum Step {
    /// The last object goes.
    Add,
    Other {
        object: usize,
        before: Object,
    },
}

#[derive(Clone, Debug, PartialEq, Eq)]
pub struct Found {
    pub limits: Limits,
    pub settings: Settings,
    pub objects: Vec<Object>,
    /// Computed lists as they are stored, fresh or not.
    pub lists: Vec<Option<Vec<u8>>>,
    /// The latest first.
    pub steps: Vec<Step>,
}

impl Found {
    /// The objects with all their lists worked out anew.
    fn put(&mut self, objects: Vec<Object>) -> Result<(), Refused> {
        self.lists = all_lists(&self.settings, &objects)?;
        self.objects = objects;
        Ok(())
    }
}

/// What a room holds after the calls that made this tree.
impl From<&Tree> for Found {
    fn from(tree: &Tree) -> Found {
        let objects = tree.objects();
        let kept = tree.kept_changes();
        let steps = kept.map(|(change, before)| Step::of(change, &before));
        Found {
            limits: tree.limits(),
            settings: tree.settings().clone(),
            lists: (0..objects.len()).map(|number| tree.list(number)).collect(),
            steps: steps.collect(),
            objects,
        }
    }
}

impl Step {
    /// The step that this change, made to these objects, keeps.
    pub fn of(change: &Change, before: &[Object]) -> Step {
        let object = change.object(before.len());
        match before.get(object) {
            None => Step::Add,
            Some(own_data) => Step::Other {
                object,
                before: own_data.clone(),
            },
        }
    }
}

impl Calls for Found {
    fn objects(&self) -> Vec<Object> {
        self.objects.clone()
    }

    fn list(&self, number: usize) -> Option<Vec<u8>> {
        self.lists[number].clone()
    }

    fn kept_steps(&self) -> usize {
        self.steps.len()
    }

    fn change(&mut self, change: &Change) -> Result<Answer, Refused> {
        change.check(&self.objects, self.limits.objects)?;
        let step = Step::of(change, &self.objects);
        let number = change.object(self.objects.len());
        let mut objects = self.objects.clone();
        apply(&mut objects, change);
        self.put(objects)?;
        self.steps.insert(0, step);
        self.steps.truncate(self.limits.steps);
        Ok(list_answer(self.lists[number].as_deref()))
    }

    fn undo(&mut self) -> Result<Answer, Refused> {
        let step = self.steps.first().ok_or(Refused::NothingKept)?;
        let mut objects = self.objects.clone();
        match step {
            Step::Add => {
                objects.pop();
            }
            Step::Other { object, before } => objects[*object] = before.clone(),
        }
        self.put(objects)?;
        self.steps.remove(0);
        Ok(Answer::default())
    }
}
