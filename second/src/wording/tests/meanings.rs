//! What texts mean, worked by hand; and that their stored forms come to the
//! same.

use super::*;
use crate::condition::{Truth, evaluate};
use Truth::{False, True, Unknown};

type Values<'a> = &'a [(&'a str, i64)];

fn meaning(text: &str, values: Values) -> Truth {
    let said = read(text.as_bytes()).expect(text);
    said.meaning(&|name| {
        let value = values.iter().find(|(known, _)| *known == name);
        value.map(|&(_, value)| value)
    })
}

/// Each record is the 16-bit length of the name, the name in 16-bit units and
/// the value.
fn table(values: Values) -> Vec<u8> {
    let mut table = Vec::new();
    for (name, value) in values {
        table.extend((2 * name.len() as u16).to_le_bytes());
        table.extend(name.bytes().flat_map(|byte| [byte, 0]));
        table.extend(value.to_le_bytes());
    }
    table
}

#[track_caller]
fn assert_means(text: &str, values: Values, expected: Truth) {
    assert_eq!(meaning(text, values), expected, "{text}, {values:?}");
    let form = stored(text).bytes;
    let answer = [0, 0, 0, expected.number(), 0, 0, 0, 0];
    assert_eq!(
        evaluate(&form, &table(values)),
        answer,
        "{text}, {values:?}"
    );
}

#[test]
fn comparisons() {
    for (text, expected) in [
        ("a==3", True),
        ("a!=3", False),
        ("a<3", False),
        ("a<=3", True),
        ("a>3", False),
        ("a>=3", True),
        ("a<4", True),
        ("a>-4", True),
        ("-4<a", True),
        ("003==a", True),
        ("1<2", True),
        ("-0==0", True),
        ("a==b", Unknown),
        ("b!=3", Unknown),
        ("b==b", Unknown),
        ("A==3", Unknown),
        ("a==a", True),
        ("aa==3", Unknown),
        ("-9223372036854775808<9223372036854775807", True),
        ("-9223372036854775808==a", False),
    ] {
        assert_means(text, &[("a", 3)], expected);
    }
}

/// x is missing, 1==1 is true, 1==2 is false.
#[test]
fn three_truths() {
    let written = [("1==1", True), ("1==2", False), ("x==1", Unknown)];
    for (left, of_left) in written {
        let turned = match of_left {
            True => False,
            False => True,
            Unknown => Unknown,
        };
        assert_means(&format!("!{left}"), &[], turned);
        for (right, of_right) in written {
            let both = match (of_left, of_right) {
                (False, _) | (_, False) => False,
                (Unknown, _) | (_, Unknown) => Unknown,
                (True, True) => True,
            };
            let either = match (of_left, of_right) {
                (True, _) | (_, True) => True,
                (Unknown, _) | (_, Unknown) => Unknown,
                (False, False) => False,
            };
            assert_means(&format!("{left}&&{right}"), &[], both);
            assert_means(&format!("{left}||{right}"), &[], either);
        }
    }
}

/// Where another grouping would come to something else.
#[test]
fn one_reading() {
    for (text, expected) in [
        // true or (false and false)
        ("1==1||1==2&&1==2", True),
        ("(1==1||1==2)&&1==2", False),
        // (false and false) or true
        ("1==2&&1==2||1==1", True),
        ("1==2&&(1==2||1==1)", False),
        // (not false) or true, and not (false or true)
        ("!1==2||1==1", True),
        ("!(1==2||1==1)", False),
        ("!1==2&&1==2", False),
        ("!(1==2&&1==2)", True),
        ("!!1==1", True),
        ("!1==1||!1==2", True),
    ] {
        assert_means(text, &[], expected);
    }
}

#[test]
fn an_administrators_text() {
    let text = "level>=3&&(site==-7||crew==2)&&!Banned==1";
    assert_means(text, &[], Unknown);
    let values = [("level", 3), ("site", -7), ("crew", 0), ("Banned", 0)];
    assert_means(text, &values, True);
    assert_means(text, &[("level", 2)], False);
    assert_means(text, &[("Banned", 1)], False);
    assert_means(text, &values[..3], Unknown);
    let values = [("level", 9), ("site", 7), ("crew", 0), ("Banned", 0)];
    assert_means(text, &values, False);
    let values = [("level", 9), ("crew", 2), ("Banned", 5)];
    assert_means(text, &values, True);
}
