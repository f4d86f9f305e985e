//! The stored form, byte for byte.

use super::*;

const A: &str = "F8 02000000 6100";
const B: &str = "F8 02000000 6200";
const C: &str = "F8 02000000 6300";
const ONE: &str = "04 0100000000000000 03 02";
const TWO: &str = "04 0200000000000000 03 02";
const THREE: &str = "04 0300000000000000 03 02";

/// The text's tokens are these, behind the signature.
#[track_caller]
fn assert_tokens(text: &str, tokens: &[&str]) {
    let expected = hex::decode(&format!("61727478 {}", tokens.concat())).unwrap();
    let stored = stored(text);
    assert_eq!(stored.bytes, expected, "{text}");
    assert_eq!(stored.tokens, tokens.len(), "{text}");
}

#[test]
fn names_and_integers() {
    assert_tokens("a==1", &[A, ONE, "80"]);
    assert_tokens("1==a", &[ONE, A, "80"]);
    let level = "F8 0C000000 4C0065007600 65006C003900";
    assert_tokens("Level9>=3", &[level, THREE, "85"]);
    let names = ["F8 02000000 5A00", "F8 04000000 7A003000"];
    assert_tokens("Z<z0", &[names[0], names[1], "82"]);
}

/// Two's complement, lowest byte first; zeros in front and the sign of a zero
/// leave no trace.
#[test]
fn integers() {
    for (written, value) in [
        ("0", "0000000000000000"),
        ("-0", "0000000000000000"),
        ("-1", "FFFFFFFFFFFFFFFF"),
        ("-256", "00FFFFFFFFFFFFFF"),
        ("0001", "0100000000000000"),
        ("-0000", "0000000000000000"),
        ("4294967296", "0000000001000000"),
        ("9223372036854775807", "FFFFFFFFFFFFFF7F"),
        ("-9223372036854775808", "0000000000000080"),
        ("0009223372036854775807", "FFFFFFFFFFFFFF7F"),
        ("-09223372036854775807", "0100000000000080"),
    ] {
        let token = format!("04 {value} 03 02");
        assert_tokens(&format!("{written}<a"), &[&token, A, "82"]);
        assert_tokens(&format!("a<{written}"), &[A, &token, "82"]);
        assert_tokens(&format!("a<={written}"), &[A, &token, "83"]);
    }
}

#[test]
fn six_comparisons() {
    for (sign, code) in [
        ("==", "80"),
        ("!=", "81"),
        ("<", "82"),
        ("<=", "83"),
        (">", "84"),
        (">=", "85"),
    ] {
        assert_tokens(&format!("a{sign}b"), &[A, B, code]);
        assert_tokens(&format!("1{sign}2"), &[ONE, TWO, code]);
    }
}

#[test]
fn operators_come_behind_their_operands() {
    assert_tokens("a==1&&b==2", &[A, ONE, "80", B, TWO, "80", "A0"]);
    assert_tokens("a==1||b==2", &[A, ONE, "80", B, TWO, "80", "A1"]);
    assert_tokens("!a==1", &[A, ONE, "80", "A2"]);
    assert_tokens("!!a==1", &[A, ONE, "80", "A2", "A2"]);
    assert_tokens("((a==1))", &[A, ONE, "80"]);
}

#[test]
fn and_binds_tighter_than_or() {
    let (a, b, c) = ([A, ONE, "80"], [B, TWO, "80"], [C, THREE, "80"]);
    let joined = |parts: &[&[&'static str]]| parts.concat();
    assert_tokens("a==1||b==2&&c==3", &joined(&[&a, &b, &c, &["A0", "A1"]]));
    assert_tokens("a==1&&b==2||c==3", &joined(&[&a, &b, &["A0"], &c, &["A1"]]));
    assert_tokens(
        "(a==1||b==2)&&c==3",
        &joined(&[&a, &b, &["A1"], &c, &["A0"]]),
    );
}

#[test]
fn both_group_to_the_left() {
    let (a, b, c) = ([A, ONE, "80"], [B, TWO, "80"], [C, THREE, "80"]);
    for (sign, code) in [("&&", "A0"), ("||", "A1")] {
        let left = [&a[..], &b, &[code], &c, &[code]].concat();
        let right = [&a[..], &b, &c, &[code, code]].concat();
        assert_tokens(&format!("a==1{sign}b==2{sign}c==3"), &left);
        assert_tokens(&format!("(a==1{sign}b==2){sign}c==3"), &left);
        assert_tokens(&format!("a==1{sign}(b==2{sign}c==3)"), &right);
    }
}

/// Before any factor: one comparison or what stands in parentheses.
#[test]
fn not_takes_one_factor() {
    let (a, b) = ([A, ONE, "80"], [B, TWO, "80"]);
    let joined = |parts: &[&[&'static str]]| parts.concat();
    assert_tokens("!a==1&&b==2", &joined(&[&a, &["A2"], &b, &["A0"]]));
    assert_tokens("a==1&&!b==2", &joined(&[&a, &b, &["A2", "A0"]]));
    assert_tokens("!(a==1&&b==2)", &joined(&[&a, &b, &["A0", "A2"]]));
    assert_tokens("!(!a==1)||b==2", &joined(&[&a, &["A2", "A2"], &b, &["A1"]]));
    assert_tokens("!a!=1", &[A, ONE, "81", "A2"]);
}

/// 4 of the signature, 7 of a name of one letter, 11 of an integer, 1 each.
#[test]
fn answers_and_rooms() {
    let form = hex::decode(&format!("61727478 {A} {ONE} 80")).unwrap();
    assert_eq!(form.len(), 23);
    let done = [0, 0, 0, 23, 1, 3, 0, 0];
    let no_room = [8, 0, 0, 0, 0, 0, 0, 0];
    for length in [0, 3, 4, 22, 23, 24, 40] {
        let mut out = vec![0xAA; length];
        let answer = condition(b"a==1", &mut out);
        if length < 23 {
            assert_eq!((answer, &out), (no_room, &vec![0xAA; length]));
        } else {
            assert_eq!(answer, done);
            assert_eq!(out[..23], form);
            assert!(out[23..].iter().all(|&byte| byte == 0xAA));
        }
    }
}
