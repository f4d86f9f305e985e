//! Types 09 and 0A: an expression behind the SID.

use super::*;

/// S-1-5, then: there is a name "a". Eight bytes, eight, and twelve.
const ENTRY: &str = "09 00 1C00 01000000 01 00 000000000005 61727478 F8 02000000 6100 87";

/// Type and size of the entry, then what is behind the SID.
fn with_expression(entry_type: &str, expression: &str) -> Vec<u8> {
    let size = 16 + bytes(expression).len() as u8;
    let list_size = 8 + size;
    bytes(&format!(
        "0200 {list_size:02X}00 0100 0000 \
        {entry_type} 00 {size:02X}00 01000000 01 00 000000000005 {expression}"
    ))
}

/// "a" exists, and so many times not: twelve bytes and one for each.
fn exists(nots: usize, zeros: usize) -> String {
    let (nots, zeros) = ("A2".repeat(nots), "00".repeat(zeros));
    format!("61727478 F8 02000000 6100 87 {nots} {zeros}")
}

#[test]
fn fields_of_a_conditional_entry() {
    for (byte, entry_type) in [
        ("09", EntryType::ConditionalAllow),
        ("0A", EntryType::ConditionalDeny),
    ] {
        let list = with_expression(byte, &exists(1, 3));
        let parsed = List::parse(&list).unwrap();
        assert_eq!((parsed.revision, parsed.end), (Revision::Plain, 40));
        let entry = &parsed.entries[0];
        assert_eq!(entry.entry_type, entry_type);
        assert_eq!(entry.bytes.len(), 32);
        assert_eq!(entry.sid, [1, 0, 0, 0, 0, 0, 0, 5]);
        assert_eq!(entry.expression, &list[24..]);
        let name = Condition::Exists(&[0x61, 0]);
        assert_eq!(entry.condition, Some(Condition::Not(Box::new(name))));
    }
}

#[test]
fn either_revision() {
    for revision in ["02", "04"] {
        let list = format!("{revision}00 2400 0100 0000 {ENTRY}");
        assert_eq!(count_and_end(&bytes(&list)), (1, 36));
    }
}

#[test]
fn zeros_up_to_a_multiple_of_four() {
    for nots in 0..8 {
        for zeros in 0..9 {
            let list = with_expression("0A", &exists(nots, zeros));
            if zeros == (8 - nots) % 4 {
                assert_eq!(count_and_end(&list), (1, list.len()));
            } else {
                assert_eq!(refusal(&list), (2, 8), "{nots} {zeros}");
            }
        }
    }
}

/// 15 comes before the 2 of (h).
#[test]
fn an_expression_before_its_zeros() {
    for expression in [
        "",
        "00",
        "61727478",
        "61727478 00",
        "61727478 F8 02000000 6100",
        "61727478 F8 02000000 6100 00",
        "61727478 F8 02000000 6100 87 00 01",
        "61727478 F8 02000000 6100 A2",
    ] {
        let list = with_expression("09", expression);
        assert_eq!(refusal(&list), (15, 8), "{expression}");
    }
}

/// The SID ends at the size: an empty expression. Past it: 2.
#[test]
fn where_the_sid_ends() {
    for (numbers, expected) in [(0, 15), (1, 2), (15, 2)] {
        let mut list = with_expression("09", "");
        list[17] = numbers;
        assert_eq!(refusal(&list), (expected, 8), "{numbers}");
    }
    // With four bytes more.
    for (numbers, expected) in [(0, 15), (1, 15), (2, 2)] {
        let mut list = with_expression("09", "61727478");
        list[17] = numbers;
        assert_eq!(refusal(&list), (expected, 8), "{numbers}");
    }
}

#[test]
fn the_checks_before_it() {
    // The last token is none; type, flags, SID and size are changed besides.
    let bad = with_expression("09", &exists(0, 0).replace("87", "88"));
    for (at, value, number) in [
        (8, 8, 3),
        (9, 0x20, 4),
        (10, 29, 2),
        (10, 7, 2),
        (10, 15, 2),
        (16, 2, 5),
        (17, 16, 5),
        (17, 4, 2),
        (12, 0xFF, 15),
    ] {
        let mut list = bad.clone();
        list[at] = value;
        assert_eq!(refusal(&list), (number, 8), "{at} {value}");
    }
}

#[test]
fn the_first_bad_entry_decides_by_15_too() {
    let good = bytes(ENTRY);
    let bad_expression = bytes(&ENTRY.replace("87", "88"));
    let bad_type = bytes(&ENTRY.replace("09 00", "08 00"));
    let list = |entries: [&[u8]; 2]| {
        let head = bytes("0200 4000 0200 0000");
        [&head[..], entries[0], entries[1]].concat()
    };
    assert_eq!(refusal(&list([&bad_expression, &bad_type])), (15, 8));
    assert_eq!(refusal(&list([&bad_type, &bad_expression])), (3, 8));
    assert_eq!(refusal(&list([&good, &bad_expression])), (15, 36));
    // What the count hides is looked at by nothing.
    let mut hidden = list([&good, &bad_expression]);
    hidden[4] = 1;
    assert_eq!(count_and_end(&hidden), (1, 36));
    assert_eq!(count_and_end(&list([&good, &good])), (2, 64));
}

/// An object entry has no expression behind its SID, and neither has 00.
#[test]
fn other_types_have_none() {
    for entry_type in ["00", "01"] {
        let list = with_expression(entry_type, &exists(0, 0));
        assert_eq!(refusal(&list), (2, 8));
    }
}
