//! Calls that fill a tree to its limits and go on with it there.

use second::cases::build::{
    EntryPlan, MOST_NUMBERS, creator_sid, good_list, nt_sid, random_sid, random_spare, with_spare,
};
use second::cases::tree::make::{entries_of, one_entry, remove_list, set_list, set_owner};
use second::cases::tree::palette::{Palette, object};
use second::random::Random;
use second::tree::{
    Add, Change, LONGEST_LIST, MOST_OBJECTS, MOST_STEPS, NO_PARENT, Object, Start, traits,
};

use crate::mutate::bad_list;
use crate::tree::spoil;

/// Of entries.
pub const SHORTEST: usize = 16;
const LONGEST: usize = 112;
/// Flags of entries that come down, and of such as stop one level below.
pub const COMING_DOWN: [u8; 6] = [0x02, 0x03, 0x03, 0x0A, 0x0B, 0x01];
const STOPPING: [u8; 4] = [0x04, 0x06, 0x07, 0x0E];
/// Flags of entries that are for the object alone.
const STAYING: [u8; 2] = [0x00, 0x00];

/// An object that keeps out what comes down, in every tree.
const MARKED: usize = 9;

/// The shape of a tree.
#[derive(Clone, Copy, PartialEq, Eq)]
pub enum Profile {
    /// Each below the one before.
    Chain,
    /// Most below the root.
    Wide,
    Mixed,
}

pub struct Maker {
    pub profile: Profile,
    pub palette: Palette,
    /// Objects from this number on have long lists of their own, which leave
    /// little room for what comes down: a change far above is refused for them.
    pub loaded_from: usize,
}

impl Maker {
    pub fn start(&self, random: &mut Random, rule: u32) -> Start {
        let mut start = self.palette.start(random, MOST_OBJECTS, MOST_STEPS);
        if start.default_list.len() > LONGEST_LIST {
            start.has_default = 0;
        }
        start.with_rule(rule)
    }

    /// One that may be refused, since its list would be too long.
    pub fn add(&self, random: &mut Random, standing: &[Object]) -> Add {
        let is_root = standing.is_empty();
        let container = match self.profile {
            Profile::Chain => true,
            Profile::Wide => is_root || random.chance(1, 2),
            Profile::Mixed => is_root || random.chance(7, 8),
        };
        let (list, protected) = if is_root {
            (Some(self.coming_down(random)), false)
        } else if standing.len() == MARKED {
            (Some(self.coming_down(random)), true)
        } else {
            self.own_list(random, standing.len())
        };
        let chosen = [
            (traits::CONTAINER, container),
            (traits::PROTECTED, protected),
            (traits::OWN_LIST, list.is_some()),
        ];
        let chosen = chosen.into_iter().filter(|&(_, yes)| yes);
        Add {
            parent: self.parent(random, standing),
            traits: chosen.map(|(bit, _)| bit).sum(),
            object_type: self.palette.guid(random),
            owner: self.palette.sid(random),
            group: self.palette.sid(random),
            list: list.unwrap_or_default(),
        }
    }

    /// One that no list hinders: what comes down is kept out.
    pub fn plain_add(&self, random: &mut Random, standing: &[Object]) -> Add {
        let number = random.word();
        let add = self.add(random, standing);
        Add {
            traits: add.traits | traits::PROTECTED,
            ..add
        }
        .with_list(one_entry(0x03, number))
    }

    pub fn parent(&self, random: &mut Random, standing: &[Object]) -> u32 {
        let containers: Vec<usize> = (0..standing.len())
            .filter(|&number| standing[number].is_container)
            .collect();
        let Some(&last) = containers.last() else {
            return NO_PARENT;
        };
        let parent = match self.profile {
            Profile::Chain => last,
            Profile::Wide if random.chance(3, 4) => 0,
            Profile::Mixed if random.chance(1, 2) => last,
            Profile::Wide | Profile::Mixed => *random.pick(&containers),
        };
        parent as u32
    }

    /// An own list or none, and whether it keeps out what comes down.
    fn own_list(&self, random: &mut Random, number: usize) -> (Option<Vec<u8>>, bool) {
        match random.below(16) {
            0..6 => (None, random.chance(1, 8)),
            6..13 if number >= self.loaded_from => (Some(self.staying(random)), false),
            6..13 => (None, false),
            13 => (Some(self.of_flags(random, &STOPPING, 120)), false),
            14 => (Some(self.of_flags(random, &COMING_DOWN, 40)), false),
            _ => (Some(self.coming_down(random)), true),
        }
    }

    fn coming_down(&self, random: &mut Random) -> Vec<u8> {
        self.of_flags(random, &COMING_DOWN, 280)
    }

    fn staying(&self, random: &mut Random) -> Vec<u8> {
        self.of_flags(random, &STAYING, 900)
    }

    /// Of so many bytes at most, but for spare bytes, which every fourth has.
    fn of_flags(&self, random: &mut Random, flags: &[u8], most: usize) -> Vec<u8> {
        let list = self.filled(random, flags, most);
        if random.chance(3, 4) {
            return list;
        }
        let left = LONGEST_LIST - list.len();
        let length = *random.pick(&[1, 2, 20, left - 1, left]);
        with_spare(&list, &random_spare(random, length))
    }

    fn filled(&self, random: &mut Random, flags: &[u8], most: usize) -> Vec<u8> {
        let mut bytes = SHORTEST + 4 * random.below((most - SHORTEST) / 4);
        let mut plans = Vec::new();
        while bytes >= LONGEST + SHORTEST {
            let plan = self.plan(random, flags);
            bytes -= plan.size();
            plans.push(plan);
        }
        plans.extend(entries_of(*random.pick(flags), bytes));
        let list = good_list(&plans);
        let conditional = self.palette.under_conditions(random, list.clone());
        if conditional.len() <= most {
            return conditional;
        }
        list
    }

    fn plan(&self, random: &mut Random, flags: &[u8]) -> EntryPlan {
        let numbers = random.below(MOST_NUMBERS + 1);
        let mut plan = EntryPlan::random(random, true);
        plan.flags = *random.pick(flags);
        plan.sid = match random.below(4) {
            0 => creator_sid(random.below(2) as u32),
            1 => random_sid(random, numbers),
            _ => self.palette.sid(random),
        };
        for guid in &mut plan.guids {
            *guid = self.palette.guid(random);
        }
        plan
    }

    /// On a tree that is full or nearly so.
    pub fn change(&self, random: &mut Random, standing: &[Object]) -> Change {
        let any = object(random, standing.len());
        let upper = random.below(self.loaded_from.max(8)) as u32;
        match random.below(16) {
            0..3 => set_list(upper, self.coming_down(random)),
            3 | 4 => set_list(any.max(self.loaded_from as u32), self.staying(random)),
            5 => remove_list(any),
            6 | 7 => set_owner(upper, self.identity(random), self.identity(random)),
            8 => set_owner(any, self.identity(random), self.identity(random)),
            9 | 10 => self.mark(random, standing),
            11 => Change::Add(self.add(random, standing)),
            12 => self.palette.change(random, standing, MOST_OBJECTS as usize),
            _ => self.spoilt(random, standing),
        }
    }

    /// Long as often as not.
    fn identity(&self, random: &mut Random) -> Vec<u8> {
        if random.chance(1, 2) {
            nt_sid(&vec![random.word(); 8 + random.below(8)])
        } else {
            self.palette.sid(random)
        }
    }

    /// Taken off where one stands, as often as not.
    fn mark(&self, random: &mut Random, standing: &[Object]) -> Change {
        let marked: Vec<usize> = (0..standing.len())
            .filter(|&number| standing[number].is_protected)
            .collect();
        if !marked.is_empty() && random.chance(1, 2) {
            return Change::SetMark {
                object: *random.pick(&marked) as u32,
                mark: 0,
            };
        }
        Change::SetMark {
            object: object(random, standing.len()),
            mark: random.below(2) as u32,
        }
    }

    /// Most of these are refused before a list is computed.
    pub fn spoilt(&self, random: &mut Random, standing: &[Object]) -> Change {
        let mut change = if random.chance(1, 3) {
            Change::Add(self.add(random, standing))
        } else {
            self.palette.change(random, standing, MOST_OBJECTS as usize)
        };
        let unknown = (random.word() >> random.below(28)).max(standing.len() as u32);
        match &mut change {
            Change::SetList { object, .. } | Change::SetOwner { object, .. }
                if random.chance(1, 6) =>
            {
                *object = unknown;
            }
            Change::Add(add) if random.chance(1, 2) => {
                add.traits |= traits::OWN_LIST;
                add.list = refused_list(random);
            }
            Change::SetList { has_list, list, .. } if random.chance(3, 4) => {
                *has_list = 1;
                *list = refused_list(random);
            }
            _ => spoil(random, &mut change),
        }
        change
    }
}

/// A bad one, or one that is a spare byte too long.
pub fn refused_list(random: &mut Random) -> Vec<u8> {
    if random.chance(3, 4) {
        return bad_list(random);
    }
    let list = one_entry(0x03, random.word());
    let missing = LONGEST_LIST - list.len();
    with_spare(&list, &random_spare(random, missing + 1))
}
