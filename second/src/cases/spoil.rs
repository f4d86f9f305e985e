//! Ways to spoil one good entry.

use crate::cases::build::EntryPlan;

#[derive(Clone, Copy)]
pub enum Spoil {
    Type(u8),
    Flags(u8),
    /// Only the size field; the bytes stay.
    SizeField(usize),
    /// The size field and the bytes.
    Resize(usize),
    Word(u32),
    SidRevision(u8),
    SidCount(u8),
}

impl Spoil {
    /// Changes `bytes`, which began as the plan's own.
    pub fn apply(self, plan: &EntryPlan, bytes: &mut Vec<u8>) {
        match self {
            Spoil::Type(value) => put(bytes, 0, &[value]),
            Spoil::Flags(value) => put(bytes, 1, &[value]),
            Spoil::SizeField(size) => put(bytes, 2, &(size as u16).to_le_bytes()),
            Spoil::Resize(size) => {
                put(bytes, 2, &(size as u16).to_le_bytes());
                bytes.resize(size, 0);
            }
            Spoil::Word(word) => put(bytes, 8, &word.to_le_bytes()),
            Spoil::SidRevision(value) => put(bytes, plan.sid_at(), &[value]),
            Spoil::SidCount(value) => put(bytes, plan.sid_at() + 1, &[value]),
        }
    }
}

/// Bytes past the end are left out: an entry may be cut already.
fn put(bytes: &mut [u8], at: usize, values: &[u8]) {
    for (place, value) in bytes.iter_mut().skip(at).zip(values) {
        *place = *value;
    }
}

pub fn spoilt(plan: &EntryPlan, spoils: &[Spoil]) -> Vec<u8> {
    let mut bytes = plan.bytes();
    for spoil in spoils {
        spoil.apply(plan, &mut bytes);
    }
    bytes
}

/// Every check of an entry, each violated in many ways.
pub fn thorough(plan: &EntryPlan) -> Vec<Spoil> {
    let mut spoils = Vec::new();
    spoils.extend((0..=9).chain([0x11, 0x80, 0x85, 0xFF]).map(Spoil::Type));
    spoils.extend([0x20, 0x40, 0x80, 0x3F, 0x9F, 0xFF].map(Spoil::Flags));
    let sizes = (0..plan.size() + 6).chain([0x0100 + plan.size(), 0x8000, 0xFFFF]);
    spoils.extend(sizes.map(Spoil::SizeField));
    if plan.is_object() {
        spoils.extend((0..8).map(Spoil::Word));
        let single_bits = [4, 7, 8, 15, 16, 23, 24, 31].map(|bit| 1u32 << bit);
        spoils.extend(single_bits.map(|bit| Spoil::Word(bit | plan.word)));
        spoils.push(Spoil::Word(u32::MAX));
    }
    spoils.extend([0, 2, 3, 0x10, 0x81, 0xFF].map(Spoil::SidRevision));
    spoils.extend(
        (0..5)
            .chain([14, 15, 16, 17, 0x20, 0x80, 0x81, 0xFF])
            .map(Spoil::SidCount),
    );
    spoils
}

/// Lengths for an entry that stands last, the list's size following.
pub fn real_lengths(plan: &EntryPlan) -> impl Iterator<Item = Spoil> {
    (0..plan.size() + 9).map(Spoil::Resize)
}

/// One or two ways for each check, (a) to (h), in this order.
pub fn one_of_each(plan: &EntryPlan) -> Vec<Spoil> {
    let fixed_part = if plan.is_object() { 12 } else { 8 };
    let mut spoils = vec![
        Spoil::SizeField(0xFFFF),
        Spoil::Type(7),
        Spoil::Flags(0x20),
        Spoil::SizeField(fixed_part - 1),
        Spoil::SizeField(3),
    ];
    if plan.is_object() {
        spoils.push(Spoil::Word(4 | plan.word));
    }
    spoils.extend([
        Spoil::SizeField(plan.sid_at() + 7),
        Spoil::SizeField(fixed_part),
        Spoil::SidRevision(2),
        Spoil::SidCount(16),
        Spoil::SizeField(plan.size() - 4),
    ]);
    spoils
}
