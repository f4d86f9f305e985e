//! What holds of every list computed by rule 2, whatever the second program
//! says: no mask has a generic bit. Entries are walked here by their sizes
//! alone. And how it is told what a list hangs on.

use crate::report::Report;
use second::list::List;

pub const RULE: u32 = 2;

/// How many lists were looked at.
const LISTS: &str = "lists by rule 2 without generic bits";
const GENERIC: u32 = 0xF000_0000;
const GENERIC_ALL: u32 = 0x1000_0000;
/// Of a list, and where a mask stands in an entry.
const HEAD: usize = 8;
const MASK: usize = 4;

/// Of lists that the library computed by rule 2.
pub fn check<'a>(
    report: &mut Report,
    lists: impl IntoIterator<Item = &'a [u8]>,
) -> Result<(), String> {
    let mut looked_at = 0;
    for list in lists {
        if let Some(at) = generic_bit(list) {
            return Err(format!("by rule 2 a generic bit is left at {at}"));
        }
        looked_at += 1;
    }
    report.add_times(LISTS, looked_at);
    Ok(())
}

/// Where the first entry begins that has one, or that isn't there.
fn generic_bit(list: &[u8]) -> Option<usize> {
    let mut at = HEAD;
    for _ in 0..half(list, 4).unwrap_or(0) {
        let size = half(list, at + 2);
        let mask = list.get(at + MASK..).and_then(<[u8]>::first_chunk);
        match (size, mask) {
            (Some(size), Some(&mask)) if u32::from_le_bytes(mask) & GENERIC == 0 => at += size,
            _ => return Some(at),
        }
    }
    None
}

fn half(list: &[u8], at: usize) -> Option<usize> {
    let bytes = list.get(at..)?.first_chunk()?;
    Some(u16::from_le_bytes(*bytes).into())
}

/// Another mask, where the mapping has a generic bit: a list that is computed
/// with it differs if an entry joined it.
pub fn other_where_it_brings_in(mapping: u32) -> u32 {
    match mapping & GENERIC {
        0 => mapping,
        _ => !mapping & !GENERIC,
    }
}

/// As rule 1 leaves it.
pub fn has_full_control(list: &[u8]) -> bool {
    let entries = List::parse(list).map_or(Vec::new(), |list| list.entries);
    entries.iter().any(|entry| entry.mask & GENERIC_ALL != 0)
}

#[cfg(test)]
mod tests {
    use super::*;
    use second::cases::build::{EntryPlan, good_list, nt_sid};

    fn with_masks(masks: &[u32]) -> Vec<u8> {
        let plans = masks.iter().enumerate().map(|(place, &mask)| EntryPlan {
            mask,
            ..EntryPlan::object(5, 0x03, place as u32 % 4, nt_sid(&[7]))
        });
        good_list(&plans.collect::<Vec<_>>())
    }

    #[test]
    fn generic_bits_are_seen_in_any_entry() {
        assert_eq!(generic_bit(&with_masks(&[])), None);
        assert_eq!(generic_bit(&with_masks(&[0x0FFF_FFFF, 1, 0])), None);
        for bit in 28..32 {
            assert_eq!(generic_bit(&with_masks(&[1 << bit, 0])), Some(8));
            // An object entry of 24 bytes stands before it.
            assert_eq!(generic_bit(&with_masks(&[0, 1 << bit])), Some(32));
        }
    }

    #[test]
    fn mappings_without_generic_bits_stay() {
        assert_eq!(other_where_it_brings_in(0x0FFF_0001), 0x0FFF_0001);
        assert_eq!(other_where_it_brings_in(0x1FFF_0001), 0x0000_FFFE);
    }

    #[test]
    fn full_control_is_one_bit() {
        assert!(has_full_control(&with_masks(&[0, 0x1000_0000])));
        assert!(!has_full_control(&with_masks(&[0, 0xEFFF_FFFF])));
    }

    #[test]
    fn a_cut_list_is_seen() {
        let list = with_masks(&[0, 0]);
        assert_eq!(generic_bit(&list[..33]), Some(32));
    }
}
