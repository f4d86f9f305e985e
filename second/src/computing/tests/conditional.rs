//! Types 09 and 0A are treated as 00 and 01, and the expression is unchanged.

use super::*;

/// There is a name "a", and not: 13 bytes and three zeros.
const EXPRESSION: &str = "61727478 F8 02000000 6100 87 A2 000000";
const ADMINS: &str = "01 02 000000000005 20000000 20020000";
const TYPES: [&str; 2] = ["09", "0A"];

/// Document 01's parent, of this type and with an expression: 36 bytes of
/// entry.
fn parent(entry_type: &str) -> Vec<u8> {
    bytes(&format!(
        "02 00 2C 00 01 00 00 00  {entry_type} 03 24 00 00 00 00 80 {CREATOR_OWNER} {EXPRESSION}"
    ))
}

/// As K1: for itself, then handed on.
#[test]
fn handed_down_under_revision_2() {
    for entry_type in TYPES {
        let request = worked::k1().with_parent(parent(entry_type));
        let handed_down = |mask| {
            format!(
                "02 00 50 00 02 00 00 00 \
                 {entry_type} 10 24 00 {mask} {SYSTEM} {EXPRESSION} \
                 {entry_type} 1B 24 00 {mask} {SYSTEM} {EXPRESSION}"
            )
        };
        let lists = ["89 00 12 80", "89 00 12 00"].map(handed_down);
        assert_done_by_rules(request, lists.each_ref().map(String::as_str), 2);
    }
}

/// The bytes put in may be more, or fewer: the expression is behind them.
#[test]
fn behind_an_owner_of_another_length() {
    for entry_type in TYPES {
        for (owner, sizes) in [(ADMINS, ["30", "28"]), ("01 00 000000000001", ["28", "20"])] {
            let request = Request {
                owner: bytes(owner),
                ..worked::k2().with_rule(2).with_parent(parent(entry_type))
            };
            let [list_size, entry_size] = sizes;
            let list = format!(
                "02 00 {list_size} 00 01 00 00 00 \
                 {entry_type} 10 {entry_size} 00 89 00 12 00 {owner} {EXPRESSION}"
            );
            assert_done(&request, &list, 1, 0);
        }
    }
}

/// An object type is asked of neither; a list of revision 4 doesn't make the
/// result one, and an object entry does.
#[test]
fn the_revision_follows_object_entries() {
    for entry_type in TYPES {
        let mut list = parent(entry_type);
        list[0] = 4;
        list[9] = 0;
        let mut expected = list.clone();
        expected[0] = 2;
        expected[12..16].copy_from_slice(&[0x89, 0, 0x12, 0]);
        expected[16..28].copy_from_slice(&bytes(SYSTEM));
        let request = worked::k6().with_rule(2);
        let expected = hex::encode(&expected);
        assert_done(&request.clone().with_default(list.clone()), &expected, 1, 0);
        assert_done(&request.with_creator(list), &expected, 1, 0);
        let both = format!(
            "04 00 54 00 02 00 00 00 \
             {entry_type} 00 24 00 01 00 00 00 {SYSTEM} {EXPRESSION} \
             05 00 28 00 01 00 00 00 01000000 {GUID} {SYSTEM}"
        );
        assert_done_by_either_rule(worked::k6().with_default(bytes(&both)), &both, 2);
    }
}

#[test]
fn refused_by_15_with_list_and_offset() {
    let mut bad = parent("09");
    bad[28] = 0;
    assert_refused(&worked::k1().with_parent(bad.clone()), 15, 1, 8);
    assert_refused(&worked::k1().with_creator(bad.clone()), 15, 2, 8);
    assert_refused(&worked::k1().with_default(bad), 15, 3, 8);
}

/// One entry of 65,524 bytes, the most a list given can hold: 8, 12, 4, 5 and
/// the name's 65,494, then Exists. Longer SIDs make the result too long, also
/// where 16 bits don't hold the entry's size.
#[test]
fn results_of_at_most_65532_bytes_with_an_expression() {
    let name = "6100".repeat(65_494 / 2);
    let list = bytes(&format!(
        "02 00 FC FF 01 00 00 00  09 00 F4 FF 01 00 00 00 {CREATOR_OWNER} \
         61727478 F8 D6FF0000 {name} 87"
    ));
    assert_eq!(list.len(), 65_532);
    let with_owner = |numbers: u8| {
        let mut owner = vec![1, numbers, 0, 0, 0, 0, 0, 5];
        owner.resize(8 + 4 * usize::from(numbers), 0);
        Request {
            owner,
            ..worked::k6().with_default(list.clone())
        }
    };
    let mut room = vec![0; 70_000];
    for (numbers, length) in [(0, 65_528), (1, 65_532)] {
        let done = compute(&with_owner(numbers), &mut room);
        assert_eq!(done.eight(), [0, 0, 0, length, 1, 1, 0, 0]);
    }
    for numbers in [2, 3, 4, 15] {
        let refused = try_compute(&with_owner(numbers), &mut room);
        assert_eq!(refused, Err(Refused::TooLong), "{numbers}");
    }
}
