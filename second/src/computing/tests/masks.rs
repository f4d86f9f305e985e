//! The last step's masks: rule 1 by document 01, rule 2 by document 02's third
//! ticket. Masks are worked out by hand.

use super::*;
use crate::access::{Question, may_open};

const DOCUMENT_MAPPING: [u32; 4] = [0x0012_0089, 0x0012_0116, 0x0012_00A0, 0x001F_01FF];

/// One plain entry.
fn with_mask(flags: u8, mask: u32) -> Vec<u8> {
    let mask = hex::encode(&mask.to_le_bytes());
    bytes(&format!(
        "02 00 1C 00 01 00 00 00  00 {flags:02X} 14 00 {mask} {SYSTEM}"
    ))
}

/// The masks of a result.
fn masks(request: &Request) -> Vec<u32> {
    let (_, list) = run(request);
    let list = crate::list::List::parse(&list).unwrap();
    list.entries.iter().map(|entry| entry.mask).collect()
}

/// What a plain entry's mask becomes, as the default list.
fn mapped(rule: u32, mask: u32, mapping: [u32; 4]) -> u32 {
    let request = worked::k6()
        .with_rule(rule)
        .with_default(with_mask(0x00, mask));
    masks(&Request { mapping, ..request })[0]
}

/// Of a mask and a mapping, what rule 1 and rule 2 make.
#[track_caller]
fn assert_mapped(mapping: [u32; 4], rows: &[(u32, u32, u32)]) {
    for &(mask, by_rule_1, by_rule_2) in rows {
        assert_eq!(mapped(1, mask, mapping), by_rule_1, "{mask:08X} by rule 1");
        assert_eq!(mapped(2, mask, mapping), by_rule_2, "{mask:08X} by rule 2");
    }
}

#[test]
fn each_generic_bit_joins_its_mapping() {
    assert_mapped(
        [1, 2, 4, 8],
        &[
            (0x8000_0000, 0x8000_0001, 1),
            (0x4000_0000, 0x4000_0002, 2),
            (0x2000_0000, 0x2000_0004, 4),
            // 10000000 adds nothing by rule 1.
            (0x1000_0000, 0x1000_0000, 8),
            (0xF000_0100, 0xF000_0107, 0x010F),
            (0x9000_0000, 0x9000_0001, 9),
            (0x3000_0000, 0x3000_0004, 12),
            (0x0FFF_FFF0, 0x0FFF_FFF0, 0x0FFF_FFF0),
            (0, 0, 0),
        ],
    );
}

#[test]
fn the_documents_mapping() {
    assert_mapped(
        DOCUMENT_MAPPING,
        &[
            (0x8000_0000, 0x8012_0089, 0x0012_0089),
            (0x4000_0000, 0x4012_0116, 0x0012_0116),
            (0x2000_0000, 0x2012_00A0, 0x0012_00A0),
            (0x1000_0000, 0x1000_0000, 0x001F_01FF),
            (0xC000_0001, 0xC012_019F, 0x0012_019F),
            (0xF000_0000, 0xF012_01BF, 0x001F_01FF),
            (0x1100_0000, 0x1100_0000, 0x011F_01FF),
        ],
    );
}

#[test]
fn other_generic_bits_join_no_all() {
    assert_mapped(
        [0, 0, 0, 0x0FFF_FFFF],
        &[
            (0x8000_0000, 0x8000_0000, 0),
            (0x4000_0000, 0x4000_0000, 0),
            (0x2000_0000, 0x2000_0000, 0),
            (0xE000_0001, 0xE000_0001, 1),
            (0x1000_0000, 0x1000_0000, 0x0FFF_FFFF),
        ],
    );
}

#[test]
fn full_control_joins_all_and_nothing_else() {
    assert_mapped([0x10, 0x20, 0x40, 0], &[(0x1000_0002, 0x1000_0002, 2)]);
    assert_mapped(
        [0x10, 0x20, 0x40, 0x80],
        &[(0x1000_0000, 0x1000_0000, 0x80)],
    );
}

/// By rule 1 they stay; by rule 2 they are cleared after the joining. By
/// either the mask as it came decides.
#[test]
fn generic_bits_that_a_mapping_brings_in_join_nothing_more() {
    assert_mapped(
        [0x7000_0001, 2, 4, 8],
        &[
            (0x8000_0000, 0xF000_0001, 1),
            (0x4000_0000, 0x4000_0002, 2),
            (0x0000_0010, 0x0000_0010, 0x10),
        ],
    );
    assert_mapped(
        [1, 2, 0x1000_0004, 0xE000_0008],
        &[
            (0x2000_0000, 0x3000_0004, 4),
            (0x1000_0000, 0x1000_0000, 8),
            (0x3000_0000, 0x3000_0004, 12),
        ],
    );
    assert_mapped(
        [0xF000_0000; 4],
        &[
            (0x8000_0000, 0xF000_0000, 0),
            (0x1000_0000, 0x1000_0000, 0),
            (0x0000_0001, 1, 1),
        ],
    );
    assert_mapped(
        [u32::MAX; 4],
        &[
            (0x4000_0000, u32::MAX, 0x0FFF_FFFF),
            (0x1000_0000, 0x1000_0000, 0x0FFF_FFFF),
            (0x0000_0002, 2, 2),
        ],
    );
}

/// Rule 2 mends in each of its branches: from the parent, own entries with the
/// parent's part, the default list, own entries alone.
#[test]
fn every_branch_of_rule_2_mends() {
    let asking = |flags| with_mask(flags, 0x1000_0000);
    let k1 = worked::k1();
    let alone = k1.clone().with_parent(asking(0x03));
    let both = alone
        .clone()
        .with_creator(asking(0x00))
        .with(setting::AUTO_INHERIT);
    let by_default = both.clone().with(setting::DEFAULT_DESCRIPTOR);
    let default_list = worked::k6().with_default(asking(0x1B));
    let own = worked::k6().with_creator(asking(0x0B));
    for (request, count) in [
        (alone, 2),
        (both, 3),
        (by_default, 2),
        (default_list, 1),
        (own, 1),
    ] {
        let by_rule_2 = request.clone().with_rule(2);
        assert_eq!(masks(&by_rule_2), vec![0x001F_01FF; count]);
        let by_rule_1 = masks(&request.with_rule(1));
        assert!(by_rule_1.iter().all(|&mask| mask == 0x1000_0000));
    }
}

/// IO isn't looked at, in what comes down and in what stands.
#[test]
fn inherit_only_entries_are_mended_too() {
    for flags in 0..0x20 {
        let request = worked::k6().with_default(with_mask(flags, 0x9000_0000));
        let by_rule = |rule| masks(&request.clone().with_rule(rule));
        assert_eq!(by_rule(1), [0x9012_0089], "{flags:02X}");
        assert_eq!(by_rule(2), [0x001F_01FF], "{flags:02X}");
    }
}

#[test]
fn object_entries_are_mended_too() {
    let list = |mask: &str| {
        bytes(&format!(
            "04 00 30 00 01 00 00 00  06 08 28 00 {mask} 01000000 {GUID} {SYSTEM}"
        ))
    };
    let request = worked::k6().with_creator(list("01000050"));
    let by_rule = |rule| run(&request.clone().with_rule(rule)).1;
    assert_eq!(by_rule(1), list("17011250"));
    assert_eq!(by_rule(2), list("FF011F00"));
}

/// A computed list handed in again, as own, default or parent's list, keeps its
/// masks by rule 2: none of them has a generic bit.
#[test]
fn computing_again_changes_no_mask_by_rule_2() {
    let rows = (0..16).map(|generic: u32| {
        let mask = hex::encode(&(generic << 28 | generic).to_le_bytes());
        format!("00 03 14 00 {mask} {SYSTEM}")
    });
    let rows: Vec<String> = rows.collect();
    let list = bytes(&format!("02 00 48 01 10 00 00 00 {}", rows.concat()));
    for mapping in [DOCUMENT_MAPPING, [0x7000_0010, 0x20, 0xF000_0040, u32::MAX]] {
        let request = Request {
            mapping,
            ..worked::k6().with_default(list.clone())
        };
        let computed = run(&request).1;
        let first = masks(&request);
        assert!(first.iter().all(|mask| mask & 0xF000_0000 == 0));
        let as_default = request.clone().with_default(computed.clone());
        assert_eq!(run(&as_default).1, computed);
        assert_eq!(
            run(&request.clone().with_creator(computed.clone())).1,
            computed
        );
        let below = request.clone().with_parent(computed.clone());
        assert_eq!(masks(&below), first);
        // Rule 1 leaves generic bits, and joins the same mappings to them again.
        let by_rule_1 = request.with_rule(1);
        let left = run(&by_rule_1).1;
        assert_ne!(left, computed);
    }
}

/// A folder whose parent grants 10000000 to the person: who may open it?
#[test]
fn full_control_opens_by_rule_2_and_not_by_rule_1() {
    let every_bit = (0..28).map(|bit| 1 << bit);
    let wanted: Vec<u32> = every_bit.chain([0x001F_01FF, 0x0FFF_FFFF]).collect();
    for all in [0x001F_01FF, 0xF000_0003, 0x0FFF_FFFF, u32::MAX, 0] {
        let request = Request {
            mapping: [0, 0, 0, all],
            ..worked::k1().with_parent(with_mask(0x03, 0x1000_0000))
        };
        for &wanted in &wanted {
            let opens = |rule| {
                let question = Question {
                    has_list: 1,
                    list: run(&request.clone().with_rule(rule)).1,
                    object_type: [0; 16],
                    held: bytes(SYSTEM),
                    wanted,
                };
                may_open(&question)
            };
            let is_granted = wanted & !all == 0;
            let expected = [0, 0, 0, u32::from(is_granted), 0, 0, 0, 0];
            assert_eq!(opens(2), expected, "{all:08X} {wanted:08X}");
            assert_eq!(opens(1), [0; 8], "{all:08X} {wanted:08X}");
        }
    }
}
