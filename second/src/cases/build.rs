//! Building good lists, entries and identities, whole or at random.

use crate::condition::padded_length;
use crate::list::{Guid, HEADER_LENGTH, List};
use crate::random::Random;

pub const MOST_NUMBERS: usize = 15;
/// Types and object words.
pub const SHAPES: [(u8, u32); 10] = [
    (0, 0),
    (1, 0),
    (5, 0),
    (5, 1),
    (5, 2),
    (5, 3),
    (6, 0),
    (6, 1),
    (6, 2),
    (6, 3),
];

pub fn sid(authority: [u8; 6], numbers: &[u32]) -> Vec<u8> {
    let mut bytes = vec![1, numbers.len() as u8];
    bytes.extend_from_slice(&authority);
    for number in numbers {
        bytes.extend_from_slice(&number.to_le_bytes());
    }
    bytes
}

/// S-1-5 followed by the numbers.
pub fn nt_sid(numbers: &[u32]) -> Vec<u8> {
    sid([0, 0, 0, 0, 0, 5], numbers)
}

pub fn creator_sid(which: u32) -> Vec<u8> {
    sid([0, 0, 0, 0, 0, 3], &[which])
}

pub fn random_sid(random: &mut Random, count: usize) -> Vec<u8> {
    if count == 1 && random.chance(1, 4) {
        return creator_sid(random.below(3) as u32);
    }
    let mut bytes = vec![1, count as u8];
    bytes.extend(random.bytes(6 + 4 * count));
    bytes
}

/// S-1-3 with up to three small numbers; placeholders are among them.
pub fn of_creator_authority(random: &mut Random) -> Vec<u8> {
    let numbers: Vec<u32> = (0..random.below(4))
        .map(|_| random.below(3) as u32)
        .collect();
    sid([0, 0, 0, 0, 0, 3], &numbers)
}

pub fn counting_guid(first: u8) -> Guid {
    std::array::from_fn(|place| first + place as u8)
}

/// ObjectType and InheritedObjectType of entries unless others are given; no
/// byte of them looks like a SID's start.
pub const COUNTING_FROM: [u8; 2] = [0x40, 0x50];

/// Some begin as a SID does.
pub fn random_guid(random: &mut Random) -> Guid {
    let mut guid: Guid = std::array::from_fn(|_| random.byte());
    if random.chance(1, 4) {
        guid[..2].copy_from_slice(&[1, random.below(4) as u8]);
    }
    guid
}

/// The parts of one entry that is to be good.
#[derive(Clone)]
pub struct EntryPlan {
    pub entry_type: u8,
    pub flags: u8,
    pub mask: u32,
    /// Which GUIDs an object entry has, 0 to 3.
    pub word: u32,
    /// ObjectType and InheritedObjectType, written where the word has them.
    pub guids: [Guid; 2],
    pub sid: Vec<u8>,
    /// Behind the SID of a conditional entry, without its zeros; else empty.
    pub expression: Vec<u8>,
}

impl EntryPlan {
    pub fn plain(entry_type: u8, flags: u8, sid: Vec<u8>) -> EntryPlan {
        EntryPlan {
            entry_type,
            flags,
            mask: 0x001F_01FF,
            word: 0,
            guids: COUNTING_FROM.map(counting_guid),
            sid,
            expression: Vec::new(),
        }
    }

    pub fn object(entry_type: u8, flags: u8, word: u32, sid: Vec<u8>) -> EntryPlan {
        EntryPlan {
            word,
            ..EntryPlan::plain(entry_type, flags, sid)
        }
    }

    pub fn random(random: &mut Random, with_objects: bool) -> EntryPlan {
        let types: &[u8] = if with_objects { &[0, 1, 5, 6] } else { &[0, 1] };
        let numbers = match random.below(10) {
            0 => random.below(MOST_NUMBERS + 1),
            small => small % 4,
        };
        EntryPlan {
            entry_type: *random.pick(types),
            flags: random.byte() & 0x1F,
            mask: random.word(),
            word: random.below(4) as u32,
            guids: [random_guid(random), random_guid(random)],
            sid: random_sid(random, numbers),
            expression: Vec::new(),
        }
    }

    /// Types 09 and 0A.
    pub fn conditional(entry_type: u8, flags: u8, sid: Vec<u8>, expression: Vec<u8>) -> EntryPlan {
        EntryPlan {
            expression,
            ..EntryPlan::plain(entry_type, flags, sid)
        }
    }

    /// The same allow or deny as a conditional entry.
    pub fn under(self, expression: Vec<u8>) -> EntryPlan {
        let is_allow = matches!(self.entry_type, 0 | 5 | 9);
        EntryPlan {
            entry_type: if is_allow { 9 } else { 10 },
            expression,
            ..self
        }
    }

    pub fn naming(self, sid: Vec<u8>) -> EntryPlan {
        EntryPlan { sid, ..self }
    }

    pub fn is_object(&self) -> bool {
        self.entry_type == 5 || self.entry_type == 6
    }

    /// Where the SID stands, counted from the entry's first byte.
    pub fn sid_at(&self) -> usize {
        if self.is_object() {
            12 + 16 * self.word.count_ones() as usize
        } else {
            8
        }
    }

    pub fn size(&self) -> usize {
        self.sid_at() + self.sid.len() + padded_length(self.expression.len())
    }

    pub fn bytes(&self) -> Vec<u8> {
        let mut bytes = vec![self.entry_type, self.flags];
        bytes.extend_from_slice(&(self.size() as u16).to_le_bytes());
        bytes.extend_from_slice(&self.mask.to_le_bytes());
        if self.is_object() {
            bytes.extend_from_slice(&self.word.to_le_bytes());
        }
        for (place, guid) in self.guids.iter().enumerate() {
            if self.is_object() && self.word >> place & 1 == 1 {
                bytes.extend_from_slice(guid);
            }
        }
        bytes.extend_from_slice(&self.sid);
        bytes.extend_from_slice(&self.expression);
        bytes.resize(self.size(), 0);
        bytes
    }
}

/// Puts the header before entries that may be good or not.
pub fn list_of(revision: u8, entries: &[Vec<u8>]) -> Vec<u8> {
    let mut list = vec![revision, 0, 0, 0, 0, 0, 0, 0];
    list.extend(entries.concat());
    set_count(&mut list, entries.len());
    fix_size(&mut list);
    list
}

pub fn list_of_plans(revision: u8, plans: &[EntryPlan]) -> Vec<u8> {
    let entries: Vec<Vec<u8>> = plans.iter().map(EntryPlan::bytes).collect();
    list_of(revision, &entries)
}

/// The list of entries that are to be good, of the revision they ask for.
pub fn good_list(plans: &[EntryPlan]) -> Vec<u8> {
    let with_objects = plans.iter().any(EntryPlan::is_object);
    list_of_plans(if with_objects { 4 } else { 2 }, plans)
}

pub fn random_list(random: &mut Random, revision: u8, count: usize) -> Vec<u8> {
    let plans: Vec<EntryPlan> = (0..count)
        .map(|_| EntryPlan::random(random, revision == 4))
        .collect();
    list_of_plans(revision, &plans)
}

/// The same list with these bytes behind it, inside its size.
pub fn with_spare(list: &[u8], spare: &[u8]) -> Vec<u8> {
    let mut list = [list, spare].concat();
    fix_size(&mut list);
    list
}

/// A good list up to where its entries end; another as it is.
pub fn without_spare(list: &[u8]) -> Vec<u8> {
    let mut kept = list.to_vec();
    if let Ok(parsed) = List::parse(list) {
        kept.truncate(parsed.end);
        fix_size(&mut kept);
    }
    kept
}

/// The same list with a count that hides its last entries.
pub fn with_count(list: &[u8], count: usize) -> Vec<u8> {
    let mut list = list.to_vec();
    set_count(&mut list, count);
    list
}

/// The same list with a smaller count, where it has an entry.
pub fn hiding_some(random: &mut Random, list: &[u8]) -> Vec<u8> {
    let count = usize::from(u16::from_le_bytes([list[4], list[5]]));
    with_count(list, random.below(count.max(1)))
}

/// So many bytes of any kind: noise, zeros, all FF, or what looks like
/// entries, good ones and bad ones.
pub fn random_spare(random: &mut Random, length: usize) -> Vec<u8> {
    let mut entry = EntryPlan::random(random, false).bytes();
    match random.below(6) {
        0 => return vec![0; length],
        1 => return vec![0xFF; length],
        2 => return random.bytes(length),
        3 => entry[random.below(4)] ^= 1 << random.below(8),
        // It would be inherited.
        4 => entry[1] = 0x03,
        _ => {}
    }
    entry.into_iter().cycle().take(length).collect()
}

/// Makes the size field the length, cut to 16 bits.
pub fn fix_size(list: &mut [u8]) {
    if list.len() >= HEADER_LENGTH {
        let length = list.len() as u16;
        set_size(list, length);
    }
}

pub fn set_size(list: &mut [u8], size: u16) {
    list[2..4].copy_from_slice(&size.to_le_bytes());
}

pub fn set_count(list: &mut [u8], count: usize) {
    list[4..6].copy_from_slice(&(count as u16).to_le_bytes());
}

#[cfg(test)]
mod tests {
    use super::*;
    use crate::list::spare_bytes;

    #[test]
    fn an_entry_is_laid_out_as_document_01_says() {
        let plan = EntryPlan {
            mask: 0x8000_0000,
            ..EntryPlan::plain(0, 3, creator_sid(0))
        };
        let parent = [
            2, 0, 0x1C, 0, 1, 0, 0, 0, 0, 3, 0x14, 0, 0, 0, 0, 0x80, 1, 1, 0, 0, 0, 0, 0, 3, 0, 0,
            0, 0,
        ];
        assert_eq!(list_of_plans(2, &[plan]), parent);
    }

    #[test]
    fn spare_bytes_come_and_go() {
        let good = good_list(&[EntryPlan::plain(0, 3, nt_sid(&[18]))]);
        let mut random = Random::new(1);
        for length in 0..80 {
            let spare = random_spare(&mut random, length);
            let list = with_spare(&good, &spare);
            assert_eq!(list.len(), good.len() + length);
            assert_eq!(list[good.len()..], spare);
            assert_eq!(spare_bytes(&list), length);
            assert_eq!(without_spare(&list), good);
        }
        let hidden = with_count(&good, 0);
        assert_eq!(without_spare(&hidden), good_list(&[]));
        assert_eq!(without_spare(&[9; 9]), [9; 9]);
    }

    #[test]
    fn object_entries_hold_word_and_guids() {
        let bytes = EntryPlan::object(5, 0, 3, nt_sid(&[])).bytes();
        assert_eq!(bytes.len(), 8 + 4 + 32 + 8);
        assert_eq!(bytes[8..13], [3, 0, 0, 0, 0x40]);
        assert_eq!(bytes[44..46], [1, 0]);
    }
}
