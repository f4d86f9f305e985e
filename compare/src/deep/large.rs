//! A tree whose lists are worked out once at each change, parents first. The
//! second program's own trees follow the parents of every object up to the root
//! anew, which takes too long where they are deep; `check_afresh` holds this one
//! against them.

use second::answer::Answer;
use second::room::{Found, Step};
use second::tree::{
    Call, Calls, Change, Object, Outcome, Refused, Settings, Tree, all_lists, apply, list_answer,
    list_below, play_on,
};

pub type Lists = Vec<Option<Vec<u8>>>;

/// The number of an object whose list would be too long.
pub type TooLongAt = usize;

#[derive(Clone, Default)]
pub struct Large {
    tree: Option<Standing>,
}

#[derive(Clone)]
struct Standing {
    found: Found,
    /// Accepted and not undone since.
    log: Vec<Change>,
    accepted: usize,
    forgotten: usize,
    too_long: Option<TooLong>,
}

/// A change that was refused since a list would be too long.
#[derive(Clone, Copy)]
pub struct TooLong {
    pub changed: usize,
    /// The first whose list is too long, with the objects from the root to it.
    pub object: usize,
    pub depth: usize,
    pub objects: usize,
}

impl Large {
    pub fn found(&self) -> Option<&Found> {
        self.tree.as_ref().map(|tree| &tree.found)
    }

    /// How many changes were accepted, undone or not.
    pub fn accepted(&self) -> usize {
        self.tree.as_ref().map_or(0, |tree| tree.accepted)
    }

    /// How many kept steps were pushed out by later ones.
    pub fn forgotten(&self) -> usize {
        self.tree.as_ref().map_or(0, |tree| tree.forgotten)
    }

    /// Of the last call.
    pub fn too_long(&self) -> Option<TooLong> {
        self.tree.as_ref().and_then(|tree| tree.too_long)
    }

    pub fn play(&mut self, call: &Call) -> Outcome {
        if let Some(tree) = &mut self.tree {
            tree.too_long = None;
        }
        match call {
            Call::Start { room_length, start } => {
                let started = Tree::start(*room_length as usize, start);
                Outcome::Answer(started.map(|tree| {
                    self.tree = Some(Standing::begun(&tree));
                    Answer::default()
                }))
            }
            _ => play_on(self.tree.as_mut(), call),
        }
    }

    /// The log played again, every list by the second program's own way, and
    /// the steps that undo would take.
    pub fn check_afresh(&self) -> Result<(), String> {
        let tree = self.tree.as_ref().expect("a start was done");
        let found = &tree.found;
        let mut objects = Vec::new();
        let mut steps = Vec::new();
        for change in &tree.log {
            steps.insert(0, Step::of(change, &objects));
            apply(&mut objects, change);
        }
        steps.truncate(found.steps.len());
        let lists = all_lists(&found.settings, &objects);
        let parts = [
            ("own data", objects == found.objects),
            ("lists", lists.as_ref() == Ok(&found.lists)),
            ("steps", steps == found.steps),
        ];
        match parts.iter().find(|(_, same)| !same) {
            None => Ok(()),
            Some((what, _)) => Err(format!("played again, the second program has other {what}")),
        }
    }
}

impl Standing {
    fn begun(tree: &Tree) -> Standing {
        Standing {
            found: tree.into(),
            log: Vec::new(),
            accepted: 0,
            forgotten: 0,
            too_long: None,
        }
    }
}

impl Calls for Standing {
    fn objects(&self) -> Vec<Object> {
        self.found.objects()
    }

    fn list(&self, number: usize) -> Option<Vec<u8>> {
        self.found.list(number)
    }

    fn kept_steps(&self) -> usize {
        self.found.kept_steps()
    }

    fn change(&mut self, change: &Change) -> Result<Answer, Refused> {
        let found = &mut self.found;
        change.check(&found.objects, found.limits.objects)?;
        let changed = change.object(found.objects.len());
        let mut objects = found.objects.clone();
        apply(&mut objects, change);
        let lists = lists_in_turn(&found.settings, &objects).map_err(|object| {
            self.too_long = Some(TooLong {
                changed,
                object,
                depth: depths(&objects)[object],
                objects: objects.len(),
            });
            Refused::ComputedTooLong
        })?;
        found.steps.insert(0, Step::of(change, &found.objects));
        self.forgotten += usize::from(found.steps.len() > found.limits.steps);
        found.steps.truncate(found.limits.steps);
        found.objects = objects;
        found.lists = lists;
        self.accepted += 1;
        self.log.push(change.clone());
        Ok(list_answer(self.found.lists[changed].as_deref()))
    }

    fn undo(&mut self) -> Result<Answer, Refused> {
        let found = &mut self.found;
        if found.steps.is_empty() {
            return Err(Refused::NothingKept);
        }
        match found.steps.remove(0) {
            Step::Add => {
                found.objects.pop();
            }
            Step::Other { object, before } => found.objects[object] = before,
        }
        found.lists = lists_in_turn(&found.settings, &found.objects)
            .expect("these lists stood before the change");
        self.log.pop();
        Ok(Answer::default())
    }
}

/// Whether all lists would be short enough after these changes, which are good
/// in themselves.
pub fn fits(found: &Found, changes: &[Change]) -> bool {
    let mut objects = found.objects.clone();
    for change in changes {
        apply(&mut objects, change);
    }
    lists_in_turn(&found.settings, &objects).is_ok()
}

/// A parent's number is smaller than its children's, so its list is there.
pub fn lists_in_turn(settings: &Settings, objects: &[Object]) -> Result<Lists, TooLongAt> {
    let mut lists = Lists::new();
    for (number, object) in objects.iter().enumerate() {
        let parents = object.parent.and_then(|parent| lists[parent].clone());
        lists.push(list_below(settings, object, parents).map_err(|_| number)?);
    }
    Ok(lists)
}

/// How many objects stand from the root to each, both counted.
pub fn depths(objects: &[Object]) -> Vec<usize> {
    let mut depths: Vec<usize> = Vec::new();
    for object in objects {
        depths.push(1 + object.parent.map_or(0, |parent| depths[parent]));
    }
    depths
}
