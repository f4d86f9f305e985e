//! What conditions come to.

use super::*;

/// The level is at least 3.
#[test]
fn a_level() {
    let condition = [LEVEL, THREE, AT_LEAST];
    let with = |value| evaluated(&condition, &record(LEVEL_NAME, value));
    assert_eq!(with(3), TRUE);
    assert_eq!(with(i64::MAX), TRUE);
    assert_eq!(with(2), FALSE);
    assert_eq!(with(-3), FALSE);
    assert_eq!(evaluated(&condition, &[]), UNKNOWN);
}

#[test]
fn names_are_compared_as_bytes() {
    let condition = [A, ONE, EQUAL];
    for (name, expected) in [
        ("6100", TRUE),
        ("4100", UNKNOWN),
        ("0061", UNKNOWN),
        ("61006100", UNKNOWN),
        ("61000000", UNKNOWN),
    ] {
        let table = record(name, 1);
        assert_eq!(evaluated(&condition, &table), expected, "{name}");
    }
}

/// Each comparison of less, equal and more, at the ends of 64 bits too.
#[test]
fn six_comparisons_of_signed_numbers() {
    let rising = [i64::MIN, i64::MIN + 1, -1, 0, 1, i64::MAX - 1, i64::MAX];
    // Of ==, !=, <, <=, >, >=: those that hold.
    let of_less = [FALSE, TRUE, TRUE, TRUE, FALSE, FALSE];
    let of_equal = [TRUE, FALSE, FALSE, TRUE, FALSE, TRUE];
    let of_more = [FALSE, TRUE, FALSE, FALSE, TRUE, TRUE];
    for (at, left) in rising.into_iter().enumerate() {
        for (other, right) in rising.into_iter().enumerate() {
            let expected = match at {
                _ if at < other => of_less,
                _ if at == other => of_equal,
                _ => of_more,
            };
            for (operator, expected) in ["80", "81", "82", "83", "84", "85"].iter().zip(expected) {
                let literal = format!("04 {} 01 01", hex::encode(&right.to_le_bytes()));
                let found = evaluated(&[A, &literal, operator], &record("6100", left));
                assert_eq!(found, expected, "{left} {operator} {right}");
            }
        }
    }
}

/// What the number is, its sign and base bytes don't say.
#[test]
fn sign_and_base_say_nothing() {
    for sign in 1..=3 {
        for base in 1..=3 {
            let literal = format!("04 FFFFFFFFFFFFFFFF {sign:02X} {base:02X}");
            let found = evaluated(&[A, &literal, EQUAL], &record("6100", -1));
            assert_eq!(found, TRUE, "{sign} {base}");
        }
    }
}

#[test]
fn literals_and_names_on_either_side() {
    let table = [record("6100", 1), record("6200", 2)].concat();
    for (left, right, expected) in [
        (ONE, ONE, TRUE),
        (ONE, TWO, FALSE),
        (A, ONE, TRUE),
        (ONE, A, TRUE),
        (B, ONE, FALSE),
        (A, A, TRUE),
        (A, B, FALSE),
    ] {
        assert_eq!(evaluated(&[left, right, EQUAL], &table), expected);
    }
    // A missing name is unknown, even beside itself.
    for (left, right) in [(A, ONE), (ONE, A), (A, A), (A, B)] {
        assert_eq!(evaluated(&[left, right, EQUAL], &[]), UNKNOWN);
    }
    assert_eq!(
        evaluated(&[A, B, EQUAL], &record("6200", 2)),
        UNKNOWN,
        "one of two is missing"
    );
}

#[test]
fn exists_is_never_unknown() {
    assert_eq!(evaluated(&[A, EXISTS], &record("6100", 0)), TRUE);
    assert_eq!(evaluated(&[A, EXISTS], &record("6200", 0)), FALSE);
    assert_eq!(evaluated(&[A, EXISTS], &[]), FALSE);
    assert_eq!(evaluated(&[A, EXISTS, NOT], &[]), TRUE);
}

/// The tables of and, or and not, whole.
#[test]
fn three_values() {
    let conditions = [
        (format!("{ONE} {TWO} {EQUAL}"), FALSE),
        (format!("{ONE} {ONE} {EQUAL}"), TRUE),
        (format!("{A} {ONE} {EQUAL}"), UNKNOWN),
    ];
    let and_rows = [
        [FALSE, FALSE, FALSE],
        [FALSE, TRUE, UNKNOWN],
        [FALSE, UNKNOWN, UNKNOWN],
    ];
    let or_rows = [
        [FALSE, TRUE, UNKNOWN],
        [TRUE, TRUE, TRUE],
        [UNKNOWN, TRUE, UNKNOWN],
    ];
    for (row, (left, itself)) in conditions.iter().enumerate() {
        assert_eq!(evaluated(&[left], &[]), *itself);
        for (column, (right, _)) in conditions.iter().enumerate() {
            assert_eq!(evaluated(&[left, right, AND], &[]), and_rows[row][column]);
            assert_eq!(evaluated(&[left, right, OR], &[]), or_rows[row][column]);
        }
    }
    let not_row = [TRUE, FALSE, UNKNOWN];
    for ((condition, _), expected) in conditions.iter().zip(not_row) {
        assert_eq!(evaluated(&[condition, NOT], &[]), expected);
    }
}

/// 1 < 2 and 2 < 1 by the order of the operands: (1 < 2) and not (2 < 1).
#[test]
fn the_left_operand_comes_first() {
    let tokens = [ONE, TWO, "82", TWO, ONE, "82", NOT, AND];
    assert_eq!(evaluated(&tokens, &[]), TRUE);
    let (left, right) = (&tokens[..3], &tokens[3..6]);
    assert_eq!(evaluated(left, &[]), TRUE);
    assert_eq!(evaluated(right, &[]), FALSE);
}
