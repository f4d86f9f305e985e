//! An entry's values, free of the list they came from, and laid out again.

use crate::identity::Identity;
use crate::list::{
    Entry, EntryType, Guid, HAS_INHERITED_OBJECT_TYPE, HAS_OBJECT_TYPE, HEADER_LENGTH,
};

pub const OBJECT_INHERIT: u8 = 0x01;
pub const CONTAINER_INHERIT: u8 = 0x02;
pub const NO_PROPAGATE: u8 = 0x04;
pub const INHERIT_ONLY: u8 = 0x08;
pub const INHERITED: u8 = 0x10;

/// The generic bits of a mask: 80000000, 40000000, 20000000 and 10000000.
pub const GENERIC: u32 = 0xF000_0000;

/// No result of the computation is longer; a list given may have 65,535 bytes.
pub const LONGEST_LIST: usize = 65_532;

#[derive(Clone, Debug, PartialEq, Eq)]
pub struct Ace {
    pub entry_type: EntryType,
    pub flags: u8,
    pub mask: u32,
    pub object_type: Option<Guid>,
    pub inherited_object_type: Option<Guid>,
    pub sid: Identity,
    /// Of conditional entries alone, as it stood; the others' is empty.
    pub expression: Vec<u8>,
}

impl From<&Entry<'_>> for Ace {
    fn from(entry: &Entry) -> Ace {
        Ace {
            entry_type: entry.entry_type,
            flags: entry.flags,
            mask: entry.mask,
            object_type: entry.object_type.copied(),
            inherited_object_type: entry.inherited_object_type.copied(),
            sid: Identity::parse(entry.sid).expect("a parsed entry holds one SID"),
            expression: entry.expression.to_vec(),
        }
    }
}

impl Ace {
    pub fn has(&self, flag: u8) -> bool {
        self.flags & flag != 0
    }

    /// OI or CI, and nothing else, makes an entry inheritable.
    pub fn is_inheritable(&self) -> bool {
        self.has(OBJECT_INHERIT | CONTAINER_INHERIT)
    }

    pub fn with_flags(&self, flags: u8) -> Ace {
        Ace {
            flags,
            ..self.clone()
        }
    }

    fn object_word(&self) -> u32 {
        let presence = [
            (HAS_OBJECT_TYPE, self.object_type),
            (HAS_INHERITED_OBJECT_TYPE, self.inherited_object_type),
        ];
        let present = presence.iter().filter(|(_, guid)| guid.is_some());
        present.map(|(bit, _)| bit).sum()
    }

    fn bytes_after_size(&self) -> Vec<u8> {
        let mut bytes = self.mask.to_le_bytes().to_vec();
        if self.entry_type.is_object() {
            bytes.extend(self.object_word().to_le_bytes());
        }
        let guids = [self.object_type, self.inherited_object_type];
        bytes.extend(guids.into_iter().flatten().flatten());
        bytes.extend(self.sid.bytes());
        bytes.extend(&self.expression);
        bytes
    }

    /// An expression may leave no room for a longer SID before it: where the
    /// size has over 16 bits, no list holds the entry, whatever its size says.
    pub fn bytes(&self) -> Vec<u8> {
        let rest = self.bytes_after_size();
        let size = (4 + rest.len()) as u16;
        let mut bytes = vec![self.entry_type.byte(), self.flags];
        bytes.extend(size.to_le_bytes());
        bytes.extend(rest);
        bytes
    }
}

/// The list of these entries: revision 4 if it holds an object entry, else 2.
/// `None` where it would be over 65,532 bytes.
pub fn lay_out(aces: &[Ace]) -> Option<Vec<u8>> {
    let entries: Vec<u8> = aces.iter().flat_map(Ace::bytes).collect();
    let length = HEADER_LENGTH + entries.len();
    if length > LONGEST_LIST {
        return None;
    }
    let holds_object = aces.iter().any(|ace| ace.entry_type.is_object());
    let mut list = vec![if holds_object { 4 } else { 2 }, 0];
    list.extend((length as u16).to_le_bytes());
    list.extend((aces.len() as u16).to_le_bytes());
    list.extend([0, 0]);
    list.extend(entries);
    Some(list)
}

#[cfg(test)]
mod tests {
    use super::*;
    use crate::hex;
    use crate::list::List;

    fn laid_out_again(text: &str) -> Vec<u8> {
        let list = hex::decode(text).unwrap();
        let parsed = List::parse(&list).unwrap();
        let aces: Vec<Ace> = parsed.entries.iter().map(Ace::from).collect();
        lay_out(&aces).unwrap()
    }

    #[test]
    fn entries_come_out_as_they_went_in() {
        let text = "0400 7400 0300 0000 \
            06 1F 2400 01020384 01000000 00112233445566778899AABBCCDDEEFF 01 00 000000000005 \
            05 00 3400 01000000 03000000 00112233445566778899AABBCCDDEEFF \
            FFEEDDCCBBAA99887766554433221100 01 00 FF00000000FE \
            01 10 1400 02000000 01 01 000000000005 12000000";
        assert_eq!(laid_out_again(text), hex::decode(text).unwrap());
    }

    #[test]
    fn the_revision_follows_the_entries() {
        assert_eq!(laid_out_again("0400080000000000"), [2, 0, 8, 0, 0, 0, 0, 0]);
    }
}
