//! Lists that are compared: the answer's places, the bits and the row.

use super::*;
use crate::hex;

fn answer(removed: u32, added: u32, bits: u32) -> [u32; 8] {
    [0, 0, 0, removed, added, bits, 0, 0]
}

#[test]
fn the_row_holds_removed_then_added_and_the_rest_stays() {
    let (first, second) = (list("abc"), list("bxc"));
    let found = laid(&first, &second, 4);
    assert_eq!(found, (answer(1, 1, 0), vec![0, 1, 92, 93]));
    assert_eq!(laid(&first, &second, 2), (answer(1, 1, 0), vec![0, 1]));
    assert_eq!(laid(&first, &first, 2), (answer(0, 0, 0), vec![90, 91]));
    assert_eq!(laid(&first, &first, 0), (answer(0, 0, 0), vec![]));
}

#[test]
fn against_an_empty_list() {
    let found = laid(&list("abb"), &list(""), 3);
    assert_eq!(found, (answer(3, 0, HEADERS_DIFFER), vec![0, 1, 2]));
    let found = laid(&list(""), &list("abb"), 4);
    assert_eq!(found, (answer(0, 3, HEADERS_DIFFER), vec![0, 1, 2, 93]));
    assert_eq!(laid(&list(""), &list(""), 1), (answer(0, 0, 0), vec![90]));
}

/// Revision, size and count are the fields in which good lists can differ.
#[test]
fn headers_are_all_eight_bytes() {
    let mut other_revision = list("a");
    other_revision[0] = 4;
    let found = laid(&list("a"), &other_revision, 0);
    assert_eq!(found.0, answer(0, 0, HEADERS_DIFFER));
    let found = laid(&list("ab"), &list("ac"), 2);
    assert_eq!(found.0, answer(1, 1, 0));
    // The same size, and another count: one entry of 32 bytes, two of 16.
    let long = hex::decode(
        "0200 2800 0100 0000 00 00 2000 61000000 01 04 000000000005 \
         01000000 02000000 03000000 04000000",
    );
    let found = laid(&long.unwrap(), &list("aa"), 3);
    assert_eq!(found.0, answer(1, 2, HEADERS_DIFFER));
}

#[test]
fn spare_bytes_are_the_same_or_not() {
    let both = HEADERS_DIFFER | SPARE_BYTES_DIFFER;
    for (first, second, bits) in [
        (&[][..], &[][..], 0),
        (&[7], &[7], 0),
        (&[7], &[8], SPARE_BYTES_DIFFER),
        (&[7, 0], &[7, 1], SPARE_BYTES_DIFFER),
        (&[7], &[], both),
        (&[], &[0], both),
        (&[7], &[7, 0], both),
    ] {
        let found = laid(&roomy("ab", first), &roomy("ab", second), 1);
        assert_eq!(
            found,
            (answer(0, 0, bits), vec![90]),
            "{first:?} {second:?}"
        );
    }
    // The same ones behind other entries.
    let found = laid(&roomy("ab", &[7]), &roomy("b", &[7]), 1);
    assert_eq!(found, (answer(1, 0, HEADERS_DIFFER), vec![0]));
}

/// What the count hides is no entry, whatever its bytes are.
#[test]
fn hidden_entries_are_spare_bytes() {
    let shown = list("ab");
    let mut hidden = shown.clone();
    hidden[4] = 1;
    let both = HEADERS_DIFFER | SPARE_BYTES_DIFFER;
    assert_eq!(laid(&shown, &hidden, 1), (answer(1, 0, both), vec![1]));
    assert_eq!(laid(&hidden, &shown, 1), (answer(0, 1, both), vec![1]));
    assert_eq!(laid(&hidden, &hidden, 1), (answer(0, 0, 0), vec![90]));
}

/// Each bit of an entry that may be another.
#[test]
fn entries_are_equal_when_their_bytes_are() {
    let first = list("a");
    // Allow and deny; the five flags; the mask; authority of the SID.
    let flags = (0..5).map(|bit| (9, 1 << bit));
    let mask = (12..16).flat_map(|at| (0..8).map(move |bit| (at, 1 << bit)));
    let authority = (18..24).flat_map(|at| (0..8).map(move |bit| (at, 1 << bit)));
    for (at, bit) in [(8, 1)]
        .into_iter()
        .chain(flags)
        .chain(mask)
        .chain(authority)
    {
        let mut second = first.clone();
        second[at] ^= bit;
        let found = laid(&first, &second, 2);
        assert_eq!(found, (answer(1, 1, 0), vec![0, 0]), "byte {at}");
    }
}
