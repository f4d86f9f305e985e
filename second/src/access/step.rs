//! The viewer's walk: from a place in the list to the next entry.

use crate::answer::Answer;
use crate::list::{Entry, HAS_INHERITED_OBJECT_TYPE, HAS_OBJECT_TYPE, List};
use crate::refusal::Refusal;

/// The eight numbers of the answer, and the eight of the entry.
pub fn step(list: &[u8], place: u32) -> ([u32; 8], [u32; 8]) {
    match try_step(list, place) {
        Ok(Some(entry)) => {
            let begin = number(entry.offset);
            ([0, 0, 0, begin, 1, 0, 0, 0], in_eight(&entry))
        }
        Ok(None) => ([0; 8], [0; 8]),
        Err(refusal) => (Answer::refused(refusal, 0).eight(), [0; 8]),
    }
}

/// The first entry that begins at or after the place.
pub fn try_step(list: &[u8], place: u32) -> Result<Option<Entry<'_>>, Refusal> {
    let mut entries = List::parse(list)?.entries.into_iter();
    Ok(entries.find(|entry| number(entry.offset) >= place))
}

fn in_eight(entry: &Entry) -> [u32; 8] {
    let size = entry.bytes.len();
    [
        entry.entry_type.byte().into(),
        entry.flags.into(),
        number(size),
        entry.mask,
        object_word(entry),
        number(size - entry.sid.len() - entry.expression.len()),
        number(entry.sid.len()),
        number(entry.offset + size),
    ]
}

/// 0 where the entry has none.
fn object_word(entry: &Entry) -> u32 {
    let of_type = entry.object_type.map_or(0, |_| HAS_OBJECT_TYPE);
    let of_inherited = entry.inherited_object_type;
    of_type | of_inherited.map_or(0, |_| HAS_INHERITED_OBJECT_TYPE)
}

fn number(value: usize) -> u32 {
    u32::try_from(value).expect("a good list is under 65,536 bytes")
}
