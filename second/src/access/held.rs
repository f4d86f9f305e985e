//! The SIDs that a person holds, laid end to end.

use super::Refused;
use crate::identity::{HEAD_LENGTH, length_by_head};

pub const MOST_HELD: usize = 32;

/// They are walked to their end before they are counted.
pub fn at_most_32(held: &[u8]) -> Result<Vec<&[u8]>, Refused> {
    let sids = held_sids(held)?;
    match sids.len() {
        0..=MOST_HELD => Ok(sids),
        _ => Err(Refused::TooManyHeld),
    }
}

/// However many they are.
pub fn held_sids(held: &[u8]) -> Result<Vec<&[u8]>, Refused> {
    end_to_end(held).ok_or(Refused::HeldNotSids)
}

/// `None` unless the bytes are SIDs to their end; placeholders are SIDs too.
fn end_to_end(mut bytes: &[u8]) -> Option<Vec<&[u8]>> {
    let mut sids = Vec::new();
    while !bytes.is_empty() {
        let head = bytes.first_chunk::<HEAD_LENGTH>()?;
        let (sid, behind) = bytes.split_at_checked(length_by_head(head)?)?;
        sids.push(sid);
        bytes = behind;
    }
    Some(sids)
}
