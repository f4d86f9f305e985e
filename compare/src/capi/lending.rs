//! Lending what a call only reads: each part by itself, or all of them in one
//! buffer, where a part that stands in another one is lent from there.

use std::cmp::Reverse;
use std::ops::Range;

use super::WhenEmpty;
use second::random::Random;

/// In memory, where a mapping stands.
const WORD: usize = 4;

pub struct Lending {
    pub when_empty: WhenEmpty,
    together: Option<Together>,
}

/// Parts on top of each other as far as they are the same.
struct Together {
    bytes: Vec<u8>,
    /// What the bytes were before the call.
    before: Vec<u8>,
}

/// How two parts lie to each other.
#[derive(Clone, Copy, Debug, PartialEq, Eq)]
pub enum Shared {
    Nothing,
    /// One range is lent twice.
    Whole,
    /// They overlap; in most cases one lies inside the other.
    Part,
}

impl Lending {
    pub fn apart(when_empty: WhenEmpty) -> Lending {
        Lending {
            when_empty,
            together: None,
        }
    }

    /// What is lent has to be among the parts, or be the mapping.
    pub fn together(when_empty: WhenEmpty, parts: &[&[u8]], mapping: Option<[u32; 4]>) -> Lending {
        Lending {
            when_empty,
            together: Some(Together::of(parts, mapping)),
        }
    }

    /// Together in one of so many cases.
    pub fn draw(
        random: &mut Random,
        one_in: usize,
        parts: &[&[u8]],
        mapping: Option<[u32; 4]>,
    ) -> Lending {
        let when_empty = WhenEmpty::draw(random);
        if random.chance(1, one_in) {
            Lending::together(when_empty, parts, mapping)
        } else {
            Lending::apart(when_empty)
        }
    }

    pub(super) fn pointer(&self, part: &[u8]) -> *const u8 {
        match &self.together {
            Some(together) if !part.is_empty() => together.bytes[together.range(part)].as_ptr(),
            _ => self.when_empty.pointer(part),
        }
    }

    pub(super) fn mapping(&self, mapping: &[u32; 4]) -> *const u32 {
        match &self.together {
            Some(together) => together.bytes[together.mapping_range(*mapping)]
                .as_ptr()
                .cast(),
            None => mapping.as_ptr(),
        }
    }

    pub fn is_apart(&self) -> bool {
        self.together.is_none()
    }

    pub fn is_unchanged(&self) -> bool {
        let together = self.together.as_ref();
        together.is_none_or(|together| together.bytes == together.before)
    }

    /// Empty parts share nothing.
    pub fn shared(&self, one: &[u8], other: &[u8]) -> Shared {
        match &self.together {
            Some(together) if !one.is_empty() && !other.is_empty() => {
                shared(together.range(one), together.range(other))
            }
            _ => Shared::Nothing,
        }
    }

    /// Whether one part lies whole in the last bytes of another, so many.
    pub fn lies_in_the_end(&self, inner: &[u8], outer: &[u8], last: usize) -> bool {
        match &self.together {
            Some(together) if !inner.is_empty() && last > 0 => {
                let (inner, outer) = (together.range(inner), together.range(outer));
                outer.end - last <= inner.start && inner.end <= outer.end
            }
            _ => false,
        }
    }

    pub fn shared_with_mapping(&self, part: &[u8], mapping: [u32; 4]) -> Shared {
        match &self.together {
            Some(together) if !part.is_empty() => {
                shared(together.range(part), together.mapping_range(mapping))
            }
            _ => Shared::Nothing,
        }
    }
}

fn shared(one: Range<usize>, other: Range<usize>) -> Shared {
    if one == other {
        Shared::Whole
    } else if one.start < other.end && other.start < one.end {
        Shared::Part
    } else {
        Shared::Nothing
    }
}

impl Together {
    /// Long parts come first, so that short ones are found in them.
    fn of(parts: &[&[u8]], mapping: Option<[u32; 4]>) -> Together {
        let mut longest_first = parts.to_vec();
        longest_first.sort_by_key(|part| Reverse(part.len()));
        let most: usize = parts.iter().map(|part| part.len() + WORD).sum();
        // It never grows past this, so that it stays where it is.
        let mut bytes: Vec<u8> = Vec::with_capacity(most + size_of::<[u32; 4]>() + 2 * WORD);
        for part in longest_first {
            if found(&bytes, part, 1).is_none() {
                begin_a_word(&mut bytes);
                bytes.extend(part);
            }
        }
        if let Some(mapping) = mapping.map(bytes_of)
            && found(&bytes, &mapping, WORD).is_none()
        {
            begin_a_word(&mut bytes);
            bytes.extend(mapping);
        }
        Together {
            before: bytes.clone(),
            bytes,
        }
    }

    fn range(&self, part: &[u8]) -> Range<usize> {
        self.range_by(part, 1)
    }

    fn mapping_range(&self, mapping: [u32; 4]) -> Range<usize> {
        self.range_by(&bytes_of(mapping), WORD)
    }

    fn range_by(&self, part: &[u8], step: usize) -> Range<usize> {
        let at = found(&self.bytes, part, step).expect("every part was laid here");
        at..at + part.len()
    }
}

fn bytes_of(mapping: [u32; 4]) -> Vec<u8> {
    mapping.map(u32::to_ne_bytes).concat()
}

/// The first place of the part, at a multiple of `step` in memory.
fn found(bytes: &[u8], part: &[u8], step: usize) -> Option<usize> {
    let first = bytes.as_ptr().align_offset(step);
    let places = (first..bytes.len()).step_by(step);
    places.into_iter().find(|&at| bytes[at..].starts_with(part))
}

/// As lists do in most programs, parts begin at a multiple of four.
fn begin_a_word(bytes: &mut Vec<u8>) {
    let end = bytes.as_ptr_range().end;
    bytes.resize(bytes.len() + end.align_offset(WORD), 0xEE);
}

#[cfg(test)]
mod tests {
    use super::*;

    fn lent(parts: &[&[u8]], mapping: [u32; 4]) -> Lending {
        Lending::together(WhenEmpty::Null, parts, Some(mapping))
    }

    #[test]
    fn equal_parts_are_one_range() {
        let (one, other, third) = (vec![1, 2, 3], vec![1, 2, 3], vec![3, 2, 1]);
        let lending = lent(&[&one, &other, &third], [9; 4]);
        assert_eq!(lending.pointer(&one), lending.pointer(&other));
        assert_eq!(lending.shared(&one, &other), Shared::Whole);
        assert_eq!(lending.shared(&one, &third), Shared::Nothing);
    }

    #[test]
    fn a_part_is_lent_from_inside_a_longer_one() {
        let (short, long) = (vec![5, 6], vec![4, 5, 6, 7]);
        let lending = lent(&[&short, &long], [9; 4]);
        let inside = lending.pointer(&long).wrapping_add(1);
        assert_eq!(lending.pointer(&short), inside);
        assert_eq!(lending.shared(&short, &long), Shared::Part);
    }

    #[test]
    fn a_part_in_the_last_bytes_of_another() {
        let (outer, inner) = (vec![1, 2, 3, 4, 5], vec![3, 4]);
        let lending = lent(&[&outer, &inner], [9; 4]);
        for (last, lies) in [(0, false), (2, false), (3, true), (5, true)] {
            assert_eq!(lending.lies_in_the_end(&inner, &outer, last), lies);
        }
        assert!(!lending.lies_in_the_end(&outer, &inner, 2));
        assert!(!Lending::apart(WhenEmpty::Null).lies_in_the_end(&inner, &outer, 3));
    }

    #[test]
    fn a_mapping_stands_at_a_multiple_of_four() {
        let mapping = [0x0102_0304, 5, 6, 7];
        let words = bytes_of(mapping);
        for before in 0..5 {
            let long = [&vec![0xAA; before][..], &words].concat();
            let lending = lent(&[&long], mapping);
            assert!(lending.mapping(&mapping).is_aligned());
            let expected = match before {
                0 => Shared::Whole,
                4 => Shared::Part,
                _ => Shared::Nothing,
            };
            assert_eq!(lending.shared_with_mapping(&long, mapping), expected);
        }
    }

    #[test]
    fn apart_nothing_is_shared() {
        let lending = Lending::apart(WhenEmpty::Pointer);
        let (one, other) = (vec![1], vec![1]);
        assert_ne!(lending.pointer(&one), lending.pointer(&other));
        assert_eq!(lending.shared(&one, &other), Shared::Nothing);
    }
}
