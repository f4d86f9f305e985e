//! Integers about the ends of 64 bits and elsewhere, as they may be written.

use super::make::fitting;
use crate::records::Case;

/// Digits alone; each is taken with a minus too.
const DIGITS: [&str; 24] = [
    "0",
    "1",
    "9",
    "10",
    "255",
    "256",
    "65536",
    "2147483648",
    "4294967295",
    "4294967296",
    "922337203685477580",
    "922337203685477581",
    "999999999999999999",
    "1000000000000000000",
    "9223372036854775799",
    "9223372036854775806",
    "9223372036854775807",
    "9223372036854775808",
    "9223372036854775809",
    "9223372036854775810",
    "9999999999999999999",
    "10000000000000000000",
    "18446744073709551615",
    "18446744073709551616",
];

pub fn cases() -> Vec<Case> {
    let mut texts = Vec::new();
    for digits in DIGITS {
        for sign in ["", "-"] {
            for zeros in ["", "00"] {
                texts.extend(on_either_side(&format!("{sign}{zeros}{digits}")));
            }
        }
        texts.push(format!("a<{digits}0"));
        texts.push(format!("a<-{digits}0"));
    }
    texts.extend(other_digits());
    texts.extend(last_digits());
    texts.extend(many_zeros());
    for odd in [
        "-", "--1", "---1", "+1", "-+1", "+-1", "1-", "-1-1", "0-0", "-x", "1x", "-0-",
    ] {
        texts.extend(on_either_side(odd));
    }
    fitting(texts)
}

/// The second is alone, and behind another integer.
fn on_either_side(integer: &str) -> Vec<String> {
    vec![
        format!("{integer}<a"),
        format!("a!={integer}"),
        format!("-5>={integer}"),
    ]
}

/// Each digit of the two ends one more or one less.
fn other_digits() -> Vec<String> {
    let mut texts = Vec::new();
    for integer in ["9223372036854775807", "-9223372036854775808"] {
        for at in integer.len() - 19..integer.len() {
            for by in [-1, 1] {
                let mut changed = integer.as_bytes().to_vec();
                changed[at] = changed[at].wrapping_add_signed(by);
                let changed = String::from_utf8(changed).expect("it is ASCII");
                texts.push(format!("x<{changed}"));
            }
        }
    }
    texts
}

/// The last digit of nineteen, and one behind.
fn last_digits() -> Vec<String> {
    let mut texts = Vec::new();
    for digit in 0..=9 {
        for begin in [
            "922337203685477580",
            "9223372036854775807",
            "922337203685477579",
        ] {
            texts.push(format!("a=={begin}{digit}"));
            texts.push(format!("a==-{begin}{digit}&&b<1"));
        }
    }
    texts
}

fn many_zeros() -> Vec<String> {
    let mut texts = Vec::new();
    for zeros in [17, 18, 19, 20, 21, 40, 100, 480] {
        let zeros = "0".repeat(zeros);
        for behind in ["", "1", "9223372036854775807", "9223372036854775808"] {
            texts.push(format!("a=={zeros}{behind}"));
            texts.push(format!("-{zeros}{behind}<b"));
        }
        texts.push(format!("a==-{zeros}9223372036854775809"));
        texts.push(format!("a==1{zeros}"));
    }
    texts
}
