//! What random calls draw from, so that their parts have to do with each
//! other: entries name the objects' types, objects share owners, lists come
//! down from the root.

use super::make::{entries_of, list_of_length, start};
use crate::cases::build::{
    EntryPlan, creator_sid, good_list, hiding_some, list_of_plans, nt_sid, of_creator_authority,
    random_spare, with_spare,
};
use crate::cases::condition::fresh::Attributes;
use crate::cases::inherit::fresh::{
    generic_mask, mapping, not_looked_at, ordinary_sid, related_guids, telling_mapping,
};
use crate::list::{Guid, HEADER_LENGTH};
use crate::random::Random;
use crate::tree::{Add, Change, LONGEST_LIST, NO_PARENT, Object, Start, traits};

/// Of a condition, so that lists stay short.
const MOST_TOKENS: usize = 6;

/// What the calls of one sequence draw from.
pub struct Palette {
    guids: Vec<Guid>,
    sids: Vec<Vec<u8>>,
    most_entries: usize,
    with_objects: bool,
    /// Longer entries, so that lists soon pass 1,024 bytes.
    heavy: bool,
    /// Every other list has spare bytes.
    roomy: bool,
    /// Masks ask for generic bits, and mappings bring some in.
    generic: bool,
    /// What short conditions of entries draw from, if any has one.
    conditions: Option<Attributes>,
}

impl Palette {
    pub fn draw(random: &mut Random) -> Palette {
        let heavy = random.chance(2, 5);
        Palette::of_weight(random, heavy)
    }

    pub fn of_weight(random: &mut Random, heavy: bool) -> Palette {
        let mut sids: Vec<Vec<u8>> = (0..4).map(|_| ordinary_sid(random)).collect();
        sids.push(nt_sid(&[18]));
        if heavy {
            sids.push(nt_sid(&[random.word(); 15]));
            sids.push(nt_sid(&[random.word(); 12]));
        }
        Palette {
            guids: related_guids(random),
            sids,
            most_entries: if heavy { 7 } else { 3 },
            with_objects: random.chance(1, 3),
            heavy,
            roomy: false,
            generic: false,
            conditions: None,
        }
    }

    pub fn with_spare_bytes(self) -> Palette {
        Palette {
            roomy: true,
            ..self
        }
    }

    pub fn with_generic_bits(self) -> Palette {
        Palette {
            generic: true,
            ..self
        }
    }

    pub fn with_conditions(self) -> Palette {
        Palette {
            conditions: Some(Attributes::few()),
            ..self
        }
    }

    /// Most of the flags are such that entries come down.
    fn plan(&self, random: &mut Random) -> EntryPlan {
        let mut plan = EntryPlan::random(random, self.with_objects);
        if self.heavy && random.chance(1, 2) {
            plan.flags = *random.pick(&[0x02, 0x03, 0x0B]);
        } else if random.chance(3, 4) {
            plan.flags = *random.pick(&[0x00, 0x01, 0x02, 0x03, 0x03, 0x07, 0x0A, 0x0B]);
        }
        match random.below(16) {
            0..4 => plan.sid = creator_sid(0),
            4..6 => plan.sid = creator_sid(1),
            6..14 => plan.sid = self.sid(random),
            14 => plan.sid = of_creator_authority(random),
            _ => {}
        }
        for guid in &mut plan.guids {
            if random.chance(7, 8) {
                *guid = *random.pick(&self.guids);
            }
        }
        if self.generic {
            plan.mask = generic_mask(random);
        }
        plan
    }

    pub fn sid(&self, random: &mut Random) -> Vec<u8> {
        random.pick(&self.sids).clone()
    }

    pub fn guid(&self, random: &mut Random) -> Guid {
        *random.pick(&self.guids)
    }

    /// A good list, with spare bytes or without.
    pub fn list(&self, random: &mut Random) -> Vec<u8> {
        let list = self.filled_list(random);
        let list = self.under_conditions(random, list);
        if self.roomy && random.chance(1, 2) {
            return roomy(random, &list);
        }
        list
    }

    /// With some of its entries under short conditions, where the palette has
    /// them.
    pub fn under_conditions(&self, random: &mut Random, list: Vec<u8>) -> Vec<u8> {
        match &self.conditions {
            Some(attributes) => attributes.under_conditions(random, &list, MOST_TOKENS),
            None => list,
        }
    }

    /// Now and then a long one.
    fn filled_list(&self, random: &mut Random) -> Vec<u8> {
        if self.heavy && random.chance(1, 4) {
            return self.long_list(random);
        }
        let count = random.below(self.most_entries + 1);
        let plans: Vec<EntryPlan> = (0..count).map(|_| self.plan(random)).collect();
        if random.chance(1, 6) {
            list_of_plans(4, &plans)
        } else {
            good_list(&plans)
        }
    }

    /// Placeholders and other entries. As often as not an owner that is a
    /// little longer takes it past the limit; rarely it is past it.
    fn long_list(&self, random: &mut Random) -> Vec<u8> {
        let flags = *random.pick(&[0x00, 0x00, 0x01, 0x02, 0x03, 0x07, 0x13]);
        if random.chance(1, 8) {
            return list_of_length(flags, LONGEST_LIST + 4 - 4 * random.below(16));
        }
        let placeholders = random.below(6);
        let others = if random.chance(1, 2) {
            LONGEST_LIST - HEADER_LENGTH - 20 * placeholders - 4 * random.below(30)
        } else {
            200 + 4 * random.below(150)
        };
        let mut plans = entries_of(flags, others);
        let flags = if random.chance(1, 2) { flags } else { 0 };
        for _ in 0..placeholders {
            let at = random.below(plans.len() + 1);
            let sid = creator_sid(random.below(2) as u32);
            plans.insert(at, EntryPlan::plain(0, flags, sid));
        }
        good_list(&plans)
    }

    pub fn start(&self, random: &mut Random, objects: u32, steps: u32) -> Start {
        let has_default = random.chance(1, 2);
        let mut default_list = self.list(random);
        if !has_default {
            default_list = not_looked_at(random, default_list);
        }
        Start {
            rule: if random.chance(1, 4) { 1 } else { 2 },
            mapping: match self.generic {
                true => telling_mapping(random),
                false => mapping(random),
            },
            has_default: yes_or_no(random, has_default),
            default_list,
            ..start(objects, steps)
        }
    }

    /// Good but for a number now and then.
    pub fn change(&self, random: &mut Random, standing: &[Object], most: usize) -> Change {
        let wants_more = standing.len() < 2 || random.chance(1, 3);
        let has_place = standing.len() < most || random.chance(1, 4);
        if wants_more && has_place {
            return Change::Add(self.add(random, standing));
        }
        let object = object(random, standing.len());
        match random.below(8) {
            0..4 => {
                let has_list = random.chance(3, 4);
                let list = self.list(random);
                Change::SetList {
                    object,
                    has_list: yes_or_no(random, has_list),
                    list: if has_list {
                        list
                    } else {
                        not_looked_at(random, list)
                    },
                }
            }
            4 | 5 => {
                let mark = random.chance(1, 2);
                let mark = yes_or_no(random, mark);
                Change::SetMark { object, mark }
            }
            _ => Change::SetOwner {
                object,
                owner: self.sid(random),
                group: self.sid(random),
            },
        }
    }

    pub fn add(&self, random: &mut Random, standing: &[Object]) -> Add {
        let is_root = standing.is_empty();
        let container = random.chance(if is_root || self.heavy { 15 } else { 10 }, 16);
        let protected = random.chance(1, 4);
        let listed = random.chance(if is_root || self.heavy { 7 } else { 3 }, 8);
        let chosen = [
            (traits::CONTAINER, container),
            (traits::PROTECTED, protected),
            (traits::OWN_LIST, listed),
            (!traits::ALL, random.chance(1, 12)),
        ];
        let list = self.list(random);
        Add {
            parent: parent(random, standing),
            traits: chosen
                .into_iter()
                .filter(|&(_, yes)| yes)
                .map(|(bits, _)| bits)
                .sum(),
            object_type: self.guid(random),
            owner: self.sid(random),
            group: self.sid(random),
            list: if listed {
                list
            } else {
                not_looked_at(random, list)
            },
        }
    }
}

/// Hidden entries, a few bytes, or up to as many as a tree takes; rarely one
/// more.
fn roomy(random: &mut Random, list: &[u8]) -> Vec<u8> {
    let left = LONGEST_LIST.saturating_sub(list.len());
    let length = match random.below(16) {
        0..4 => return hiding_some(random, list),
        4 => left + random.below(2),
        5 => random.below(left + 1),
        _ => 1 + random.below(40),
    };
    with_spare(list, &random_spare(random, length))
}

fn yes_or_no(random: &mut Random, yes: bool) -> u32 {
    match (yes, random.below(8)) {
        (false, _) => 0,
        (true, 0) => 1 << random.below(32),
        (true, _) => 1,
    }
}

/// One that stands, in most cases.
pub fn object(random: &mut Random, standing: usize) -> u32 {
    match random.below(40) {
        0 => standing as u32,
        1 => *random.pick(&[64, 0xFE, 0xFF, 0x100, NO_PARENT]),
        _ if standing == 0 => 0,
        _ => random.below(standing) as u32,
    }
}

/// As it has to be, in most cases.
fn parent(random: &mut Random, standing: &[Object]) -> u32 {
    let containers: Vec<u32> = (0..standing.len())
        .filter(|&number| standing[number].is_container)
        .map(|number| number as u32)
        .collect();
    match random.below(24) {
        0 => object(random, standing.len()),
        1 => NO_PARENT,
        _ if standing.is_empty() => NO_PARENT,
        _ if containers.is_empty() => 0,
        // The latest as often as all others, so that chains come about.
        n if n < 12 => *containers.last().expect("it isn't empty"),
        _ => *random.pick(&containers),
    }
}
