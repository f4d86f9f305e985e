//! Each refusal, and what comes before what.

use super::*;

const OVER: usize = MOST_ENTRIES + 1;

/// One bad list for each number, with the offset of what is bad: the third
/// entry is at 40.
fn bad_lists() -> Vec<(u32, u32, Vec<u8>)> {
    let changed = |at: usize, value: u8| {
        let mut list = list("abc");
        list[at] = value;
        list
    };
    let mut expression = changed(40, 9);
    expression[42] = 20;
    expression.extend([0; 4]);
    expression[2] += 4;
    vec![
        (1, 0, changed(0, 3)),
        (1, 0, Vec::new()),
        (2, 40, changed(42, 15)),
        (2, 24, changed(26, 33)),
        (3, 24, changed(24, 5)),
        (4, 8, changed(9, 0x20)),
        (5, 40, changed(48, 2)),
        (15, 40, expression),
    ]
}

#[test]
fn a_bad_list_is_told_by_its_place() {
    for (number, offset, bad) in bad_lists() {
        let untouched: Vec<u32> = (90..98).collect();
        let found = laid(&bad, &list("a"), 8);
        assert_eq!(found, (refused(number, 1, offset), untouched.clone()));
        let found = laid(&list("a"), &bad, 8);
        assert_eq!(found, (refused(number, 2, offset), untouched));
    }
}

#[test]
fn of_two_bad_lists_the_first_decides() {
    for (number, offset, first) in bad_lists() {
        for (_, _, second) in bad_lists() {
            let (answer, _) = laid(&first, &second, 0);
            assert_eq!(answer, refused(number, 1, offset));
        }
    }
}

#[test]
fn over_128_entries_in_either_list() {
    let [most, over] = [MOST_ENTRIES, OVER].map(|count| list(&"a".repeat(count)));
    let untouched: Vec<u32> = (90..390).collect();
    for (first, second) in [
        (&over, &over),
        (&over, &most),
        (&most, &over),
        (&over, &list("")),
        (&list(""), &over),
    ] {
        let found = laid(first, second, 300);
        assert_eq!(found, (refused(22, 0, 0), untouched.clone()));
    }
    assert_eq!(laid(&most, &most, 0).0, [0; 8]);
    let other = list(&"b".repeat(MOST_ENTRIES));
    let (answer, row) = laid(&most, &other, 256);
    assert_eq!(answer, [0, 0, 0, 128, 128, 0, 0, 0]);
    assert_eq!(
        row,
        [0..128, 0..128].into_iter().flatten().collect::<Vec<u32>>()
    );
}

/// Both are good, with a count that hides all that are too many.
#[test]
fn hidden_entries_are_not_counted() {
    let mut hidden = list(&"a".repeat(OVER));
    hidden[4] = MOST_ENTRIES as u8;
    let (answer, row) = laid(&hidden, &list("a"), 127);
    let bits = HEADERS_DIFFER | SPARE_BYTES_DIFFER;
    assert_eq!(answer, [0, 0, 0, 127, 0, bits, 0, 0]);
    assert_eq!(row, (1..128).collect::<Vec<u32>>());
}

#[test]
fn bad_lists_come_before_too_many_entries() {
    let over = list(&"a".repeat(OVER));
    for (number, offset, bad) in bad_lists() {
        assert_eq!(laid(&bad, &over, 0).0, refused(number, 1, offset));
        assert_eq!(laid(&over, &bad, 0).0, refused(number, 2, offset));
    }
}

#[test]
fn too_many_entries_come_before_a_short_row() {
    let over = list(&"a".repeat(OVER));
    assert_eq!(laid(&over, &list(""), 0).0, refused(22, 0, 0));
    assert_eq!(
        laid(&list("b"), &over, 3),
        (refused(22, 0, 0), vec![90, 91, 92])
    );
}

/// Three are removed and two added; a shorter row stays whole.
#[test]
fn a_short_row_stays_as_it_was() {
    let (first, second) = (list("abcabba"), list("cbabac"));
    for row_length in 0..5 {
        let untouched = (90..90 + row_length).collect();
        let found = laid(&first, &second, row_length);
        assert_eq!(found, (refused(8, 0, 0), untouched));
    }
    assert_eq!(laid(&first, &second, 5).0[0], 0);
}
