//! Access lists, taken apart entry by entry.

use crate::condition::{Condition, Expression, padded_length};
use crate::identity;
use crate::refusal::{Fault, Refusal};

pub const HEADER_LENGTH: usize = 8;
const KNOWN_FLAGS: u8 = 0x1F;
pub const HAS_OBJECT_TYPE: u32 = 1;
pub const HAS_INHERITED_OBJECT_TYPE: u32 = 2;

pub type Guid = [u8; 16];

#[derive(Clone, Copy, Debug, PartialEq, Eq)]
pub enum Revision {
    Plain,
    WithObjects,
}

#[derive(Clone, Copy, Debug, PartialEq, Eq)]
pub enum EntryType {
    Allow,
    Deny,
    ObjectAllow,
    ObjectDeny,
    ConditionalAllow,
    ConditionalDeny,
}

#[derive(Clone, Debug, PartialEq, Eq)]
pub struct Entry<'a> {
    pub offset: usize,
    pub bytes: &'a [u8],
    pub entry_type: EntryType,
    pub flags: u8,
    pub mask: u32,
    pub object_type: Option<&'a Guid>,
    pub inherited_object_type: Option<&'a Guid>,
    pub sid: &'a [u8],
    /// Of conditional entries alone.
    pub condition: Option<Condition<'a>>,
    /// What is behind the SID: the condition's stored form with its zeros.
    pub expression: &'a [u8],
}

#[derive(Clone, Debug, PartialEq, Eq)]
pub struct List<'a> {
    pub revision: Revision,
    pub entries: Vec<Entry<'a>>,
    /// Where the entries end; the bytes behind are spare and looked at by
    /// nothing.
    pub end: usize,
}

struct Header {
    revision: Revision,
    count: u16,
}

impl Header {
    fn parse(list: &[u8]) -> Result<Header, Fault> {
        let &[
            revision,
            zero,
            size_low,
            size_high,
            count_low,
            count_high,
            zero_low,
            zero_high,
        ] = list
            .first_chunk::<HEADER_LENGTH>()
            .ok_or(Fault::HeaderCut)?;
        let revision = match revision {
            2 => Revision::Plain,
            4 => Revision::WithObjects,
            _ => return Err(Fault::Revision),
        };
        if [zero, zero_low, zero_high] != [0, 0, 0] {
            return Err(Fault::HeaderNotZero);
        }
        if usize::from(u16::from_le_bytes([size_low, size_high])) != list.len() {
            return Err(Fault::ListSize);
        }
        Ok(Header {
            revision,
            count: u16::from_le_bytes([count_low, count_high]),
        })
    }
}

impl EntryType {
    fn parse(byte: u8, revision: Revision) -> Option<EntryType> {
        match (byte, revision) {
            (0, _) => Some(EntryType::Allow),
            (1, _) => Some(EntryType::Deny),
            (5, Revision::WithObjects) => Some(EntryType::ObjectAllow),
            (6, Revision::WithObjects) => Some(EntryType::ObjectDeny),
            (9, _) => Some(EntryType::ConditionalAllow),
            (10, _) => Some(EntryType::ConditionalDeny),
            _ => None,
        }
    }

    pub fn byte(self) -> u8 {
        match self {
            EntryType::Allow => 0,
            EntryType::Deny => 1,
            EntryType::ObjectAllow => 5,
            EntryType::ObjectDeny => 6,
            EntryType::ConditionalAllow => 9,
            EntryType::ConditionalDeny => 10,
        }
    }

    pub fn is_object(self) -> bool {
        matches!(self, EntryType::ObjectAllow | EntryType::ObjectDeny)
    }

    pub fn is_allow(self) -> bool {
        matches!(
            self,
            EntryType::Allow | EntryType::ObjectAllow | EntryType::ConditionalAllow
        )
    }

    pub fn is_conditional(self) -> bool {
        matches!(
            self,
            EntryType::ConditionalAllow | EntryType::ConditionalDeny
        )
    }
}

/// Takes the next `N` bytes off the front, or gives the fault.
fn take<'a, const N: usize>(rest: &mut &'a [u8], fault: Fault) -> Result<&'a [u8; N], Fault> {
    let (front, behind) = rest.split_first_chunk::<N>().ok_or(fault)?;
    *rest = behind;
    Ok(front)
}

fn take_word(rest: &mut &[u8], fault: Fault) -> Result<u32, Fault> {
    take(rest, fault).map(|&bytes| u32::from_le_bytes(bytes))
}

fn take_guid<'a>(wanted: bool, rest: &mut &'a [u8]) -> Result<Option<&'a Guid>, Fault> {
    if !wanted {
        return Ok(None);
    }
    take(rest, Fault::NoGuidOrSidHead).map(Some)
}

/// (d) second half and (e): plain types have no word, which reads as 0.
fn take_object_word(entry_type: EntryType, rest: &mut &[u8]) -> Result<u32, Fault> {
    if !entry_type.is_object() {
        return Ok(0);
    }
    let word = take_word(rest, Fault::NoMaskOrWord)?;
    if word > (HAS_OBJECT_TYPE | HAS_INHERITED_OBJECT_TYPE) {
        return Err(Fault::ObjectWord);
    }
    Ok(word)
}

/// (f) last part, (g), and of (h) that the SID ends within the size.
fn take_sid<'a>(rest: &mut &'a [u8]) -> Result<&'a [u8], Fault> {
    let head = rest.first_chunk().ok_or(Fault::NoGuidOrSidHead)?;
    let length = identity::length_by_head(head).ok_or(Fault::SidHead)?;
    let (sid, behind) = rest.split_at_checked(length).ok_or(Fault::InexactSize)?;
    *rest = behind;
    Ok(sid)
}

/// The expression, then (h): zeros up to a multiple of four and no more, and
/// behind the SID of any other entry nothing. A SID and what is before it have
/// a multiple of four.
fn take_condition<'a>(
    entry_type: EntryType,
    rest: &'a [u8],
) -> Result<Option<Condition<'a>>, Fault> {
    let (condition, length) = if entry_type.is_conditional() {
        let expression = Expression::parse(rest).map_err(|_| Fault::Expression)?;
        let length = padded_length(expression.length);
        (Some(expression.condition), length)
    } else {
        (None, 0)
    };
    if length != rest.len() {
        return Err(Fault::InexactSize);
    }
    Ok(condition)
}

impl<'a> Entry<'a> {
    /// `remaining` runs from the entry's first byte to the list's end.
    fn parse(remaining: &'a [u8], offset: usize, revision: Revision) -> Result<Entry<'a>, Fault> {
        let &[type_byte, flags, size_low, size_high] =
            remaining.first_chunk().ok_or(Fault::EntryOutside)?;
        let size = usize::from(u16::from_le_bytes([size_low, size_high]));
        let bytes = remaining.get(..size).ok_or(Fault::EntryOutside)?;
        let entry_type = EntryType::parse(type_byte, revision).ok_or(Fault::EntryType)?;
        if flags > KNOWN_FLAGS {
            return Err(Fault::EntryFlags);
        }
        let mut rest = bytes.get(4..).ok_or(Fault::NoMaskOrWord)?;
        let mask = take_word(&mut rest, Fault::NoMaskOrWord)?;
        let word = take_object_word(entry_type, &mut rest)?;
        let object_type = take_guid(word & HAS_OBJECT_TYPE != 0, &mut rest)?;
        let inherited_object_type = take_guid(word & HAS_INHERITED_OBJECT_TYPE != 0, &mut rest)?;
        let sid = take_sid(&mut rest)?;
        Ok(Entry {
            offset,
            bytes,
            entry_type,
            flags,
            mask,
            object_type,
            inherited_object_type,
            sid,
            condition: take_condition(entry_type, rest)?,
            expression: rest,
        })
    }
}

impl<'a> List<'a> {
    pub fn parse(list: &'a [u8]) -> Result<List<'a>, Refusal> {
        let header = Header::parse(list).map_err(|fault| Refusal { fault, offset: 0 })?;
        let mut entries = Vec::new();
        let mut offset = HEADER_LENGTH;
        for _ in 0..header.count {
            let entry = Entry::parse(&list[offset..], offset, header.revision)
                .map_err(|fault| Refusal { fault, offset })?;
            offset += entry.bytes.len();
            entries.push(entry);
        }
        Ok(List {
            revision: header.revision,
            entries,
            end: offset,
        })
    }
}

/// How many spare bytes a good list has; 0 for one that is refused.
pub fn spare_bytes(list: &[u8]) -> usize {
    List::parse(list).map_or(0, |parsed| list.len() - parsed.end)
}

/// Whether a good list has a conditional entry; one that is refused has none.
pub fn has_conditions(list: &[u8]) -> bool {
    let entries = List::parse(list).map_or(Vec::new(), |list| list.entries);
    entries.iter().any(|entry| entry.condition.is_some())
}

#[cfg(test)]
mod tests;
