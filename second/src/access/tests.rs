mod conditional;

use super::*;
use crate::hex;

const SYSTEM: &str = "01 01 000000000005 12000000";
const ADMINS: &str = "01 02 000000000005 20000000 20020000";
const CREATOR_OWNER: &str = "01 01 000000000003 00000000";
const CREATOR_GROUP: &str = "01 01 000000000003 01000000";
const TYPE: &str = "00112233445566778899AABBCCDDEEFF";
const OTHER_TYPE: &str = "00112233445566778899AABBCCDDEEFE";

const YES: [u32; 8] = [0, 0, 0, 1, 0, 0, 0, 0];
const NO: [u32; 8] = [0; 8];

/// Type, flags, size and mask, then what is given.
fn entry(entry_type: u8, flags: u8, mask: u32, rest: &str) -> Vec<u8> {
    let rest = hex::decode(rest).unwrap();
    let mut bytes = vec![entry_type, flags, 8 + rest.len() as u8, 0];
    bytes.extend(mask.to_le_bytes());
    bytes.extend(rest);
    bytes
}

fn list(entries: &[Vec<u8>]) -> Vec<u8> {
    let entries_bytes = entries.concat();
    let length = 8 + entries_bytes.len() as u16;
    let mut list = vec![4, 0];
    list.extend(length.to_le_bytes());
    list.extend([entries.len() as u8, 0, 0, 0]);
    list.extend(entries_bytes);
    list
}

fn question(list: Vec<u8>, held: &str, wanted: u32) -> Question {
    Question {
        has_list: 1,
        list,
        object_type: hex::decode(TYPE).unwrap().try_into().unwrap(),
        held: hex::decode(held).unwrap(),
        wanted,
    }
}

fn asked(entries: &[Vec<u8>], held: &str, wanted: u32) -> [u32; 8] {
    may_open(&question(list(entries), held, wanted))
}

fn refused(number: u32) -> [u32; 8] {
    [number, 0, 0, 0, 0, 0, 0, 0]
}

#[test]
fn the_first_entry_with_the_bit_decides() {
    let allow = entry(0, 0, 0b11, SYSTEM);
    let deny = entry(1, 0, 0b10, SYSTEM);
    let allow_first = [allow.clone(), deny.clone()];
    let deny_first = [deny, allow];
    for (wanted, first, second) in [(1, YES, YES), (2, YES, NO), (3, YES, NO), (4, NO, NO)] {
        assert_eq!(asked(&allow_first, SYSTEM, wanted), first, "{wanted}");
        assert_eq!(asked(&deny_first, SYSTEM, wanted), second, "{wanted}");
    }
}

#[test]
fn bits_may_come_from_several_entries() {
    let entries = [
        entry(0, 0, 0x0001_0000, SYSTEM),
        entry(1, 0, 0x0002_0000, ADMINS),
        entry(0, 0, 0x0F03_0000, ADMINS),
    ];
    let both = format!("{SYSTEM} {ADMINS}");
    assert_eq!(asked(&entries, &both, 0x0F01_0000), YES);
    assert_eq!(asked(&entries, &both, 0x0F03_0000), NO);
    assert_eq!(asked(&entries, ADMINS, 0x0001_0000), YES);
    assert_eq!(asked(&entries, SYSTEM, 0x0101_0000), NO);
    assert_eq!(asked(&entries, "", 0x0001_0000), NO);
}

#[test]
fn only_inherit_only_is_looked_at_among_the_flags() {
    for flags in 0..0x20 {
        let allowed = if flags & 8 == 0 { YES } else { NO };
        let allow = entry(0, flags, 1, SYSTEM);
        assert_eq!(asked(&[allow], SYSTEM, 1), allowed, "{flags}");
        let denied = if flags & 8 == 0 { NO } else { YES };
        let entries = [entry(1, flags, 1, SYSTEM), entry(0, 0, 1, SYSTEM)];
        assert_eq!(asked(&entries, SYSTEM, 1), denied, "{flags}");
    }
}

#[test]
fn object_entries_count_without_an_object_type_or_with_the_given_one() {
    let shapes = [
        (format!("00000000 {SYSTEM}"), YES),
        (format!("01000000 {TYPE} {SYSTEM}"), YES),
        (format!("01000000 {OTHER_TYPE} {SYSTEM}"), NO),
        (format!("02000000 {OTHER_TYPE} {SYSTEM}"), YES),
        (format!("03000000 {TYPE} {OTHER_TYPE} {SYSTEM}"), YES),
        (format!("03000000 {OTHER_TYPE} {TYPE} {SYSTEM}"), NO),
    ];
    for (rest, allowed) in shapes {
        assert_eq!(asked(&[entry(5, 0, 1, &rest)], SYSTEM, 1), allowed);
        let denied = if allowed == YES { NO } else { YES };
        let entries = [entry(6, 0, 1, &rest), entry(0, 0, 1, SYSTEM)];
        assert_eq!(asked(&entries, SYSTEM, 1), denied, "{rest}");
    }
}

#[test]
fn placeholders_match_byte_for_byte() {
    let entries = [entry(0, 0, 1, CREATOR_OWNER)];
    assert_eq!(asked(&entries, CREATOR_OWNER, 1), YES);
    assert_eq!(asked(&entries, CREATOR_GROUP, 1), NO);
    assert_eq!(asked(&entries, SYSTEM, 1), NO);
}

#[test]
fn the_easy_yes() {
    let absent = Question {
        has_list: 0,
        ..question(vec![9; 9], "", 0x0FFF_FFFF)
    };
    assert_eq!(may_open(&absent), YES);
    assert_eq!(asked(&[], "", 0), YES);
    assert_eq!(asked(&[], SYSTEM, 1), NO);
    assert_eq!(asked(&[entry(1, 0, u32::MAX, SYSTEM)], SYSTEM, 0), YES);
}

#[test]
fn any_number_but_0_says_that_there_is_a_list() {
    for has_list in [1, 2, 0x100, 0x8000_0000, u32::MAX] {
        let question = Question {
            has_list,
            ..question(list(&[]), SYSTEM, 1)
        };
        assert_eq!(may_open(&question), NO);
    }
}

#[test]
fn refusals_in_their_order() {
    let bad_entry = list(&[entry(0, 0, 1, SYSTEM), entry(7, 0, 1, SYSTEM)]);
    let ask = |has_list, held: &str, wanted| {
        may_open(&Question {
            has_list,
            ..question(bad_entry.clone(), held, wanted)
        })
    };
    for generic in [0x1000_0000, 0x2000_0000, 0x4000_0000, 0x8000_0000] {
        assert_eq!(ask(1, "FF", generic), refused(14));
        assert_eq!(ask(0, "FF", generic | 1), refused(14));
    }
    assert_eq!(ask(1, "FF", 0x0FFF_FFFF), [3, 0, 28, 0, 0, 0, 0, 0]);
    assert_eq!(ask(0, "FF", 0), refused(6));
    let good = SYSTEM.repeat(33);
    assert_eq!(ask(0, &format!("{good} 01"), 0), refused(6));
    assert_eq!(ask(0, &good, 0), refused(7));
    assert_eq!(ask(0, &SYSTEM.repeat(32), 0), YES);
}

#[test]
fn held_bytes_are_sids_to_their_end() {
    for bad in [
        "01",
        "01 00 0000000000",
        "02 00 000000000005",
        "01 10 000000000005",
        "01 01 000000000005 120000",
        "01 00 000000000005 00",
        "01 01 000000000005 12000000 02 00 000000000005",
    ] {
        assert_eq!(asked(&[], bad, 0), refused(6), "{bad}");
    }
}

#[test]
fn spare_bytes_are_no_entries() {
    let mut hidden = list(&[entry(0, 0, 1, SYSTEM), entry(0, 0, 2, SYSTEM)]);
    hidden[4] = 1;
    assert_eq!(may_open(&question(hidden.clone(), SYSTEM, 1)), YES);
    assert_eq!(may_open(&question(hidden.clone(), SYSTEM, 2)), NO);
    assert_eq!(step(&hidden, 28), ([0; 8], [0; 8]));
}

#[test]
fn the_lowest_failing_bit_tells_why() {
    let entries = list(&[entry(1, 0, 4, SYSTEM), entry(0, 0, 1, SYSTEM)]);
    let verdict = |wanted| try_may_open(&question(entries.clone(), SYSTEM, wanted));
    assert_eq!(verdict(1), Ok(Verdict::EveryBitAllowed));
    assert_eq!(verdict(5), Ok(Verdict::BitDenied));
    assert_eq!(verdict(7), Ok(Verdict::BitUnspoken));
    assert_eq!(verdict(0), Ok(Verdict::NothingWanted));
}

/// A plain entry of 20 bytes at 8, and at 28 one of 60 with both GUIDs.
fn walked() -> Vec<u8> {
    let rest = format!("03000000 {TYPE} {OTHER_TYPE} {ADMINS}");
    list(&[
        entry(0, 0x13, 0x8012_0089, SYSTEM),
        entry(6, 0x0A, 0x1F, &rest),
    ])
}

#[test]
fn the_walk_from_entry_to_entry() {
    let list = walked();
    let first = [0, 0x13, 20, 0x8012_0089, 0, 8, 12, 28];
    let second = [6, 0x0A, 60, 0x1F, 3, 44, 16, 88];
    for (place, begin, expected) in [
        (0, 8, first),
        (1, 8, first),
        (8, 8, first),
        (9, 28, second),
        (28, 28, second),
    ] {
        let answer = [0, 0, 0, begin, 1, 0, 0, 0];
        assert_eq!(step(&list, place), (answer, expected), "{place}");
    }
    for place in [29, 87, 88, 89, 65_536, u32::MAX] {
        assert_eq!(step(&list, place), ([0; 8], [0; 8]), "{place}");
    }
}

#[test]
fn the_walk_refuses_as_the_reader_does() {
    let mut list = walked();
    list[29] = 0x20;
    for place in [0, 28, u32::MAX] {
        assert_eq!(step(&list, place), ([4, 0, 28, 0, 0, 0, 0, 0], [0; 8]));
    }
    assert_eq!(step(&[], 0), (refused(1), [0; 8]));
}
