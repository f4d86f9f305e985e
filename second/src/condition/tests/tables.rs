//! Tables, well made and not.

use super::*;

/// So many names of four bytes, each another.
fn names(count: u8) -> Vec<u8> {
    (0..count)
        .flat_map(|at| record(&format!("{at:02X}00 6100"), at.into()))
        .collect()
}

#[track_caller]
fn assert_bad(table: &[u8], expected: BadTable) {
    assert_eq!(Table::parse(table), Err(expected));
    assert_eq!(evaluated(&[ONE, ONE, EQUAL], table), NOT_A_TABLE);
}

#[test]
fn at_most_32_names() {
    for count in [0, 1, 2, 31, 32] {
        let table = names(count);
        assert_eq!(evaluated(&[ONE, ONE, EQUAL], &table), TRUE);
        for at in 0..count {
            let name = bytes(&format!("{at:02X}00 6100"));
            let value = Table::parse(&table).unwrap().value(&name);
            assert_eq!(value, Some(at.into()));
        }
    }
    assert_bad(&names(33), BadTable::TooMany);
}

#[test]
fn each_name_once() {
    for (first, second) in [(0, 1), (0, 31), (30, 31)] {
        let mut table = names(32);
        table[14 * second..][2..6].copy_from_slice(&[first, 0, 0x61, 0]);
        assert_bad(&table, BadTable::Twice);
    }
    // Equal values are no matter, nor is a name that begins another.
    let table = [record("6100", 1), record("61006100", 1)].concat();
    assert_eq!(evaluated(&[A, ONE, EQUAL], &table), TRUE);
}

#[test]
fn cut_records() {
    let table = [record("6100", 1), record("62006300", 2)].concat();
    assert_eq!(table.len(), 12 + 14);
    for length in 0..=table.len() {
        let found = evaluated(&[ONE, ONE, EQUAL], &table[..length]);
        let expected = if [0, 12, 26].contains(&length) {
            TRUE
        } else {
            NOT_A_TABLE
        };
        assert_eq!(found, expected, "{length}");
    }
    assert_bad(&bytes("FEFF 6100 0100000000000000"), BadTable::Cut);
}

#[test]
fn names_have_even_length_and_some_byte() {
    assert_bad(&bytes("0000 0100000000000000"), BadTable::NameLength);
    assert_bad(&bytes("0100 61 0100000000000000"), BadTable::NameLength);
    assert_bad(&bytes("0300 610062 0100000000000000"), BadTable::NameLength);
    let behind = [record("6100", 1), bytes("0000 0100000000000000")].concat();
    assert_bad(&behind, BadTable::NameLength);
}

/// The lowest byte comes first, and the number is signed.
#[test]
fn values() {
    let table = bytes("0200 6100 0201000000000080");
    let value = Table::parse(&table).unwrap().value(&[0x61, 0]);
    assert_eq!(value, Some(i64::MIN + 0x0102));
}
