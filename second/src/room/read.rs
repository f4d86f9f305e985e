//! Reading a room. What isn't looked at may hold anything.

use super::found::{Found, Step};
use super::{NO_PARENT, STEP_OF_ADD, STEP_OF_OTHER, length};
use crate::identity;
use crate::list::List;
use crate::tree::{LONGEST_LIST, Limits, Object, Refused, Settings};

const BAD: Refused = Refused::NotATree;

/// Takes parts off the front of bytes.
struct Cursor<'a>(&'a [u8]);

impl<'a> Cursor<'a> {
    fn take(&mut self, length: usize) -> Result<&'a [u8], Refused> {
        let (part, rest) = self.0.split_at_checked(length).ok_or(BAD)?;
        self.0 = rest;
        Ok(part)
    }

    fn array<const N: usize>(&mut self) -> Result<[u8; N], Refused> {
        self.take(N)?.try_into().map_err(|_| BAD)
    }

    fn byte(&mut self) -> Result<u8, Refused> {
        self.array().map(|[byte]| byte)
    }

    fn yes_or_no(&mut self) -> Result<bool, Refused> {
        match self.byte()? {
            0 => Ok(false),
            1 => Ok(true),
            _ => Err(BAD),
        }
    }

    fn slot(&mut self) -> Result<Option<Vec<u8>>, Refused> {
        let present = self.yes_or_no()?;
        let length = usize::from(u16::from_le_bytes(self.array()?));
        let bytes = self.take(LONGEST_LIST)?;
        if !present {
            return Ok(None);
        }
        let list = bytes.get(..length).ok_or(BAD)?;
        List::parse(list).map_err(|_| BAD)?;
        Ok(Some(list.to_vec()))
    }

    fn identity(&mut self) -> Result<Vec<u8>, Refused> {
        let length = usize::from(self.byte()?);
        let bytes = self.take(identity::LONGEST)?;
        let sid = bytes.get(..length).ok_or(BAD)?;
        match identity::classify(sid) {
            0 => Ok(sid.to_vec()),
            _ => Err(BAD),
        }
    }

    /// Good by itself; whether there is such a parent comes later.
    fn own_data(&mut self) -> Result<Object, Refused> {
        let parent = self.byte()?;
        Ok(Object {
            parent: (parent != NO_PARENT).then_some(parent.into()),
            is_container: self.yes_or_no()?,
            is_protected: self.yes_or_no()?,
            object_type: self.array()?,
            owner: self.identity()?,
            group: self.identity()?,
            own_list: self.slot()?,
        })
    }
}

/// The tree that lies in a room, or 13.
pub fn read(room: &[u8]) -> Result<Found, Refused> {
    let mut head = Cursor(room);
    let [objects, steps, standing, kept, rule] = head.array()?;
    let limits = Limits::of(objects.into(), steps.into()).ok_or(BAD)?;
    let (standing, kept) = (usize::from(standing), usize::from(kept));
    let counts_fit = standing <= limits.objects && kept <= limits.steps;
    if !counts_fit || !(1..=2).contains(&rule) || room.len() < limits.room() {
        return Err(BAD);
    }
    let mut mapping = [0; 4];
    for mask in &mut mapping {
        *mask = u32::from_le_bytes(head.array()?);
    }
    let default_list = head.slot()?;

    let (places, behind) = head.0.split_at(length::OBJECT * limits.objects);
    let (objects, lists) = read_objects(places, standing)?;
    let steps = read_steps(behind, kept, &objects)?;
    Ok(Found {
        limits,
        settings: Settings {
            rule: rule.into(),
            mapping,
            default_list,
        },
        objects,
        lists,
        steps,
    })
}

type Lists = Vec<Option<Vec<u8>>>;

fn read_objects(places: &[u8], standing: usize) -> Result<(Vec<Object>, Lists), Refused> {
    let mut places = Cursor(places);
    let mut objects: Vec<Object> = Vec::new();
    let mut lists = Vec::new();
    for _ in 0..standing {
        let object = places.own_data()?;
        // Only those with a smaller number are there yet.
        let well_placed = match object.parent {
            None => objects.is_empty(),
            Some(parent) => objects
                .get(parent)
                .is_some_and(|object| object.is_container),
        };
        if !well_placed {
            return Err(BAD);
        }
        objects.push(object);
        lists.push(places.slot()?);
    }
    Ok((objects, lists))
}

fn read_steps(places: &[u8], kept: usize, objects: &[Object]) -> Result<Vec<Step>, Refused> {
    let mut places = Cursor(places);
    let mut standing = objects.len();
    let mut steps = Vec::new();
    for _ in 0..kept {
        let mut place = Cursor(places.take(length::STEP)?);
        let [kind, number] = place.array()?;
        let number = usize::from(number);
        let step = match kind {
            STEP_OF_ADD if number + 1 == standing => {
                standing = number;
                Step::Add
            }
            STEP_OF_OTHER if number < standing => Step::Other {
                object: number,
                before: agreeing(place.own_data()?, &objects[number])?,
            },
            _ => return Err(BAD),
        };
        steps.push(step);
    }
    Ok(steps)
}

/// No change but an add touches parent, kind and type.
fn agreeing(before: Object, now: &Object) -> Result<Object, Refused> {
    let fixed = |object: &Object| (object.parent, object.is_container, object.object_type);
    if fixed(&before) == fixed(now) {
        Ok(before)
    } else {
        Err(BAD)
    }
}
