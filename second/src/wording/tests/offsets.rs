//! Where no continuation is left.

use super::*;

/// Every part of a good text that stops early is refused at its end; some
/// parts are whole.
#[test]
fn beginnings_of_a_text() {
    let text = "!(a1<=-12||b==c)&&d!=e";
    let whole = [16, 22];
    for length in 0..=text.len() {
        let part = &text[..length];
        if whole.contains(&length) {
            stored(part);
        } else {
            assert_refused(part, Fault::Ends, length);
        }
    }
    let text = "a<1&&b>22||c==dd";
    for (length, is_whole) in [
        (0, false),
        (1, false),
        (2, false),
        (3, true),
        (4, false),
        (5, false),
        (6, false),
        (7, false),
        (8, true),
        (9, true),
        (10, false),
        (11, false),
        (12, false),
        (13, false),
        (14, false),
        (15, true),
        (16, true),
    ] {
        let found = translate(&text.as_bytes()[..length]);
        assert_eq!(found.is_ok(), is_whole, "{length}");
    }
}

#[test]
fn the_empty_text() {
    assert_refused("", Fault::Ends, 0);
}

/// What stands behind the first fault is not looked at.
#[test]
fn the_first_fault_decides() {
    for behind in ["", "\0", "((((((((((((((", "&&", "99999999999999999999"] {
        assert_refused(&format!("a==1 {behind}"), Fault::Byte, 4);
    }
}

#[test]
fn the_digit_that_leaves_the_range() {
    for (text, at) in [
        ("9223372036854775808==a", 18),
        ("a==9223372036854775808", 21),
        ("a==-9223372036854775809", 22),
        ("-9223372036854775809", 19),
        // Its first 19 digits are in the range.
        ("a==92233720368547758070", 22),
        ("a==10000000000000000000", 22),
        ("a==-10000000000000000000", 23),
        ("a==9999999999999999999", 21),
        ("a==9223372036854775810", 21),
        ("a==00009223372036854775808", 25),
        ("a==-09223372036854775809", 23),
        ("a==1000000000000000000000000000000000000000000", 22),
        ("a==18446744073709551616", 22),
    ] {
        assert_refused(text, Fault::Range, at);
    }
    // Each integer is counted by itself.
    stored("9223372036854775807==9223372036854775807");
    stored("-9223372036854775808<9223372036854775807");
    assert_refused("-1<9223372036854775808", Fault::Range, 21);
    stored("-1<-9223372036854775808");
}

#[test]
fn the_13th_open_parenthesis() {
    for open in 0..=12 {
        let text = format!("{}a==1{}", "(".repeat(open), ")".repeat(open));
        assert_eq!(stored(&text).tokens, 3);
        let text = format!("{}a==1{}", "!(".repeat(open), ")".repeat(open));
        assert_eq!(stored(&text).tokens, 3 + open);
    }
    for open in [13, 14, 40] {
        let text = format!("{}a==1{}", "(".repeat(open), ")".repeat(open));
        assert_refused(&text, Fault::Nested, 12);
        assert_refused(&"(".repeat(open), Fault::Nested, 12);
        let text = format!("{}a==1{}", "!!(".repeat(open), ")".repeat(open));
        assert_refused(&text, Fault::Nested, 38);
    }
    // Twelve at a time, as often as there is room for.
    let twelve = format!("{}a==1{}", "(".repeat(12), ")".repeat(12));
    assert_eq!(stored(&format!("{twelve}&&{twelve}||{twelve}")).tokens, 11);
    let text = format!("{twelve}&&({twelve})");
    assert_refused(&text, Fault::Nested, 28 + 2 + 12);
    // A not doesn't nest.
    assert_eq!(stored(&format!("{}a==1", "!".repeat(60))).tokens, 63);
    // The parenthesis that isn't closed.
    assert_refused(&format!("{}a==1", "(".repeat(12)), Fault::Ends, 16);
    assert_refused("((a==1)", Fault::Ends, 7);
}

#[test]
fn over_512_bytes() {
    for length in [513, 514, 600, 2_000, 70_000] {
        assert_refused(&"a".repeat(length), Fault::TooLong, 512);
        assert_refused(&" ".repeat(length), Fault::TooLong, 512);
        assert_refused(&"(".repeat(length), Fault::TooLong, 512);
        let good = format!("a=={}1", "0".repeat(length - 4));
        assert_refused(&good, Fault::TooLong, 512);
    }
    for length in [511, 512] {
        let good = format!("a=={}1", "0".repeat(length - 4));
        assert_eq!(stored(&good).bytes.len(), 23);
        let name = format!("{}==1", "a".repeat(length - 3));
        assert_eq!(stored(&name).bytes.len(), 4 + 5 + 2 * (length - 3) + 11 + 1);
        // A text that stops too early, however long it could not go on.
        assert_refused(&"a".repeat(length), Fault::Ends, length);
        assert_refused(
            &format!("{} ", "a".repeat(length - 1)),
            Fault::Byte,
            length - 1,
        );
    }
}
