//! Objects, and their lists by following parents up to the root.

use super::call::{Add, Change, traits};
use super::{LONGEST_LIST, NO_PARENT, Refused};
use crate::computing::{self, Request, setting};
use crate::list::Guid;

/// An object's own data.
#[derive(Clone, Debug, PartialEq, Eq)]
pub struct Object {
    pub parent: Option<usize>,
    pub is_container: bool,
    pub is_protected: bool,
    pub object_type: Guid,
    pub owner: Vec<u8>,
    pub group: Vec<u8>,
    pub own_list: Option<Vec<u8>>,
}

impl Object {
    /// Own data but for the list, as the script's record 1 lays it out.
    pub fn data(&self) -> Vec<u8> {
        let parent = self.parent.map_or(0xFF, |parent| parent as u8);
        let mut bytes = vec![parent, self.is_container.into(), self.is_protected.into()];
        bytes.extend(self.object_type);
        for sid in [&self.owner, &self.group] {
            bytes.push(sid.len() as u8);
            bytes.extend(sid);
        }
        bytes
    }
}

impl From<&Add> for Object {
    fn from(add: &Add) -> Object {
        Object {
            parent: (add.parent != NO_PARENT).then_some(add.parent as usize),
            is_container: add.has(traits::CONTAINER),
            is_protected: add.has(traits::PROTECTED),
            object_type: add.object_type,
            owner: add.owner.clone(),
            group: add.group.clone(),
            own_list: add.has(traits::OWN_LIST).then(|| add.list.clone()),
        }
    }
}

/// Makes a change that has passed its tests.
pub fn apply(objects: &mut Vec<Object>, change: &Change) {
    let number = change.object(objects.len());
    match change {
        Change::Add(add) => objects.push(Object::from(add)),
        Change::SetList { .. } => {
            objects[number].own_list = change.given_list().map(<[u8]>::to_vec);
        }
        Change::SetMark { mark, .. } => objects[number].is_protected = *mark != 0,
        Change::SetOwner { owner, group, .. } => {
            objects[number].owner = owner.clone();
            objects[number].group = group.clone();
        }
    }
}

/// The objects that stand after these changes.
pub fn played(log: &[Change]) -> Vec<Object> {
    let mut objects = Vec::new();
    for change in log {
        apply(&mut objects, change);
    }
    objects
}

/// What all of a tree's computations have in common.
#[derive(Clone, Debug, PartialEq, Eq)]
pub struct Settings {
    pub rule: u32,
    pub mapping: [u32; 4],
    pub default_list: Option<Vec<u8>>,
}

pub fn computed_list(
    settings: &Settings,
    objects: &[Object],
    number: usize,
) -> Result<Option<Vec<u8>>, Refused> {
    let object = &objects[number];
    let parents = match object.parent {
        Some(parent) => computed_list(settings, objects, parent)?,
        None => None,
    };
    list_below(settings, object, parents)
}

/// The object's list where its parent's computed list is this one.
pub fn list_below(
    settings: &Settings,
    object: &Object,
    parents: Option<Vec<u8>>,
) -> Result<Option<Vec<u8>>, Refused> {
    let request = request(settings, object, parents);
    let mut out = vec![0; LONGEST_LIST];
    let answer = computing::compute(&request, &mut out);
    match answer.number {
        0 => {}
        8 => return Err(Refused::ComputedTooLong),
        number => panic!("good parts of an object are refused by {number}"),
    }
    out.truncate(answer.length as usize);
    Ok((answer.present == 1).then_some(out))
}

/// Auto inherit is yes, default descriptor no, and the object's type is the
/// one object type.
fn request(settings: &Settings, object: &Object, parents: Option<Vec<u8>>) -> Request {
    let yes_or_no = [
        (setting::PARENT, parents.is_some()),
        (setting::CREATOR, object.own_list.is_some()),
        (setting::DEFAULT_LIST, settings.default_list.is_some()),
        (setting::CONTAINER, object.is_container),
        (setting::AUTO_INHERIT, true),
        (setting::PROTECTED, object.is_protected),
    ];
    let chosen = yes_or_no.into_iter().filter(|&(_, yes)| yes);
    Request {
        rule: settings.rule,
        settings: chosen.map(|(bit, _)| bit).sum(),
        mapping: settings.mapping,
        parent: parents.unwrap_or_default(),
        creator: object.own_list.clone().unwrap_or_default(),
        default_list: settings.default_list.clone().unwrap_or_default(),
        types: object.object_type.to_vec(),
        owner: object.owner.clone(),
        group: object.group.clone(),
    }
}

/// Every object's list, or 8 where one of them is too long.
pub fn all_lists(settings: &Settings, objects: &[Object]) -> Result<Vec<Option<Vec<u8>>>, Refused> {
    (0..objects.len())
        .map(|number| computed_list(settings, objects, number))
        .collect()
}
