mod conditional;

use super::*;
use crate::hex;

/// The parent that document 01 works with.
const PARENT: &str = "02001C0001000000 0003140000000080 0101000000000003 00000000";
/// One object entry with an ObjectType and S-1-5.
const OBJECT: &str = "0400 2C00 0100 0000 \
    05 00 2400 01000000 01000000 00112233445566778899AABBCCDDEEFF 01 00 000000000005";
/// Two entries of 16 bytes each, S-1-5.
const PAIR: &str = "0200 2800 0200 0000 \
    00 00 1000 01000000 01 00 000000000005 01 1F 1000 02000000 01 00 000000000005";

fn bytes(text: &str) -> Vec<u8> {
    hex::decode(text).unwrap()
}

fn changed(text: &str, changes: &[(usize, u8)]) -> Vec<u8> {
    let mut list = bytes(text);
    for &(at, value) in changes {
        list[at] = value;
    }
    list
}

/// The number of entries and where they end.
fn count_and_end(list: &[u8]) -> (usize, usize) {
    let parsed = List::parse(list).unwrap();
    (parsed.entries.len(), parsed.end)
}

/// With bytes behind it, inside the stated size.
fn with_spare(text: &str, spare: &[u8]) -> Vec<u8> {
    let mut list = [&bytes(text)[..], spare].concat();
    let length = list.len() as u16;
    list[2..4].copy_from_slice(&length.to_le_bytes());
    list
}

fn refusal(list: &[u8]) -> (u32, usize) {
    let refusal = List::parse(list).unwrap_err();
    (refusal.fault.number(), refusal.offset)
}

#[test]
fn fields_of_a_plain_entry() {
    let list = bytes(PARENT);
    let parsed = List::parse(&list).unwrap();
    assert_eq!(parsed.revision, Revision::Plain);
    assert_eq!(parsed.entries.len(), 1);
    let entry = &parsed.entries[0];
    assert_eq!((entry.offset, entry.bytes.len()), (8, 20));
    assert_eq!(entry.entry_type, EntryType::Allow);
    assert_eq!((entry.flags, entry.mask), (3, 0x80000000));
    assert_eq!(entry.object_type, None);
    assert_eq!(entry.sid, &list[16..]);
    assert_eq!(parsed.end, 28);
}

#[test]
fn fields_of_an_object_entry() {
    let list = bytes(OBJECT);
    let parsed = List::parse(&list).unwrap();
    let entry = &parsed.entries[0];
    assert_eq!(entry.entry_type, EntryType::ObjectAllow);
    assert_eq!(entry.object_type.unwrap()[..2], [0x00, 0x11]);
    assert_eq!(entry.inherited_object_type, None);
    assert_eq!(entry.sid, [1, 0, 0, 0, 0, 0, 0, 5]);
}

#[test]
fn empty_lists_are_good() {
    for text in ["0200080000000000", "0400080000000000"] {
        assert_eq!(count_and_end(&bytes(text)), (0, 8));
    }
}

#[test]
fn headers() {
    assert_eq!(refusal(&[]), (1, 0));
    assert_eq!(refusal(&bytes("02000700000000")), (1, 0));
    assert_eq!(refusal(&changed(PARENT, &[(0, 3)])), (1, 0));
    assert_eq!(refusal(&changed(PARENT, &[(1, 1)])), (1, 0));
    assert_eq!(refusal(&changed(PARENT, &[(2, 0x1B)])), (1, 0));
    assert_eq!(refusal(&changed(PARENT, &[(6, 1)])), (1, 0));
    assert_eq!(refusal(&changed(PARENT, &[(7, 0x80)])), (1, 0));
}

#[test]
fn a_list_of_65536_bytes_is_refused_by_its_header() {
    let mut list = vec![0; 65_536];
    list[0] = 2;
    assert_eq!(refusal(&list), (1, 0));
}

#[test]
fn a_count_past_the_entries_is_refused() {
    assert_eq!(refusal(&changed(PAIR, &[(4, 3)])), (2, 40));
    assert_eq!(refusal(&changed(PAIR, &[(5, 1)])), (2, 40));
}

#[test]
fn a_smaller_count_hides_the_entries_behind_it() {
    assert_eq!(count_and_end(&bytes(PAIR)), (2, 40));
    assert_eq!(count_and_end(&changed(PAIR, &[(4, 1)])), (1, 24));
    assert_eq!(count_and_end(&changed(PAIR, &[(4, 0)])), (0, 8));
    // Bad ones too: type, flags, size and SID of the second.
    let bad = [(4, 1), (24, 8), (25, 0xFF), (26, 0xFF), (32, 2)];
    assert_eq!(count_and_end(&changed(PAIR, &bad)), (1, 24));
}

#[test]
fn spare_bytes_may_be_any() {
    for spare in [&[0][..], &[0xFF; 3], &[5, 0, 4, 0], &[0; 40]] {
        assert_eq!(count_and_end(&with_spare(PAIR, spare)), (2, 40));
        assert_eq!(count_and_end(&with_spare(OBJECT, spare)), (1, 44));
        assert_eq!(spare_bytes(&with_spare(PARENT, spare)), spare.len());
    }
    // What looks like an entry is one only where the count says so.
    let twice = with_spare(PARENT, &bytes(PARENT)[8..]);
    assert_eq!(count_and_end(&twice), (1, 28));
    let mut counted = twice;
    counted[4] = 2;
    assert_eq!(count_and_end(&counted), (2, 48));
    assert_eq!(spare_bytes(&counted), 0);
}

#[test]
fn the_size_is_the_length_with_spare_bytes_too() {
    let mut list = with_spare(PAIR, &[0; 5]);
    for size in [40, 44, 46] {
        list[2] = size;
        assert_eq!(refusal(&list), (1, 0));
    }
    list[2] = 45;
    assert_eq!(count_and_end(&list), (2, 40));
}

/// An entry may use what would be spare: it is bad by its own tests.
#[test]
fn a_bad_entry_before_spare_bytes() {
    for (at, value, number) in [(24, 7, 3), (25, 0x20, 4), (26, 17, 2), (32, 2, 5)] {
        let mut list = with_spare(PAIR, &[0; 9]);
        list[at] = value;
        assert_eq!(refusal(&list), (number, 24), "{at}");
    }
    // The size is at most what remains, spare bytes among it.
    let mut list = with_spare(PAIR, &[0; 4]);
    list[26] = 20;
    assert_eq!(refusal(&list), (2, 24));
    list[33] = 1;
    assert_eq!(count_and_end(&list), (2, 44));
}

#[test]
fn lists_of_up_to_65535_bytes() {
    for length in [65_532, 65_533, 65_534, 65_535] {
        let list = with_spare(PAIR, &vec![0xEE; length - 40]);
        assert_eq!(count_and_end(&list), (2, 40));
        assert_eq!(spare_bytes(&list), length - 40);
    }
}

#[test]
fn entry_checks_in_order() {
    // (a) before (b): the size is one past what remains
    assert_eq!(refusal(&changed(PAIR, &[(26, 17), (24, 8)])), (2, 24));
    // (b) before (c) and (d)
    assert_eq!(
        refusal(&changed(PAIR, &[(24, 8), (25, 0x20), (26, 0)])),
        (3, 24)
    );
    // (c) before (d)
    assert_eq!(refusal(&changed(PAIR, &[(25, 0x20), (26, 0)])), (4, 24));
    // (d) for a plain type, sizes 0 and 7
    assert_eq!(refusal(&changed(PAIR, &[(26, 0)])), (2, 24));
    assert_eq!(refusal(&changed(PAIR, &[(26, 7)])), (2, 24));
    // (d) before (e): size 11 cuts the word
    assert_eq!(refusal(&changed(OBJECT, &[(10, 11), (16, 4)])), (2, 8));
    // (e) before (f)
    assert_eq!(refusal(&changed(OBJECT, &[(10, 12), (16, 4)])), (4, 8));
    assert_eq!(refusal(&changed(OBJECT, &[(19, 0x80)])), (4, 8));
    // (f) before (g): a second GUID leaves no SID
    assert_eq!(refusal(&changed(OBJECT, &[(16, 3), (36, 2)])), (2, 8));
    // (g) before (h)
    assert_eq!(refusal(&changed(PAIR, &[(16, 2), (17, 1)])), (5, 8));
    assert_eq!(refusal(&changed(PAIR, &[(17, 16)])), (5, 8));
    // (h)
    assert_eq!(refusal(&changed(PAIR, &[(17, 1)])), (2, 8));
}

#[test]
fn object_types_ask_for_revision_4() {
    assert_eq!(refusal(&changed(OBJECT, &[(0, 2)])), (3, 8));
}

#[test]
fn the_first_bad_entry_decides() {
    assert_eq!(refusal(&changed(PAIR, &[(16, 2), (24, 8)])), (5, 8));
}

#[test]
fn three_bytes_are_no_entry() {
    let list = bytes("02000B0001000000 000000");
    assert_eq!(refusal(&list), (2, 8));
}
