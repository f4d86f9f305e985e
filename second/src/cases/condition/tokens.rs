//! Tokens of each kind: cut, changed, and bytes that begin none.

use super::make::{
    EQUAL, both, by_nothing, compared, evaluate, exists, literal, literal_written, name, not,
    some_expression, stored, table,
};
use crate::condition::code;
use crate::records::Case;

pub fn cases() -> Vec<Case> {
    let mut cases = cuts();
    cases.extend(signatures());
    cases.extend(every_first_byte());
    cases.extend(signs_and_bases());
    cases.extend(lengths_of_names());
    cases.extend(nothing_left_out());
    cases
}

/// Of each kind one, cut at every byte; with and without a token before it.
fn cuts() -> Vec<Case> {
    let whole = some_expression();
    let mut cases: Vec<Case> = (0..=whole.len())
        .map(|length| evaluate(whole[..length].to_vec(), Vec::new()))
        .collect();
    for token in [literal(-2), name("ab")] {
        for length in 1..token.len() {
            let cut = token[..length].to_vec();
            cases.push(by_nothing(cut.clone()));
            cases.push(by_nothing([exists("a"), cut].concat()));
        }
    }
    cases
}

fn signatures() -> Vec<Case> {
    let good = stored(exists("a"));
    let mut cases = Vec::new();
    for at in 0..4 {
        for value in [0, good[at] ^ 0x20, good[at] + 1, 0xFF] {
            let mut bytes = good.clone();
            bytes[at] = value;
            cases.push(evaluate(bytes, Vec::new()));
        }
    }
    cases.push(evaluate(b"xtra".to_vec(), Vec::new()));
    cases.push(evaluate(good[4..].to_vec(), Vec::new()));
    cases.push(evaluate([b"artx", &good[..]].concat(), Vec::new()));
    cases
}

/// In the place of the first token, of one behind a name, and of one behind a
/// condition.
fn every_first_byte() -> Vec<Case> {
    let mut cases = Vec::new();
    for byte in 0..=0xFF {
        cases.push(by_nothing(vec![byte]));
        cases.push(by_nothing([name("a"), name("b"), vec![byte]].concat()));
        cases.push(by_nothing([exists("a"), exists("b"), vec![byte]].concat()));
    }
    cases
}

/// 0 to 4, and those that would be 1 to 3 by their lowest bits.
fn signs_and_bases() -> Vec<Case> {
    let table = table(&[("a", 7)]);
    let mut cases = Vec::new();
    let mut written = |sign, base| {
        let literal = literal_written(7, sign, base);
        let tokens = compared(name("a"), EQUAL, literal.clone());
        cases.push(evaluate(stored(tokens), table.clone()));
        let tokens = compared(literal, EQUAL, name("a"));
        cases.push(evaluate(stored(tokens), table.clone()));
    };
    for sign in 0..=4 {
        for base in 0..=4 {
            written(sign, base);
        }
    }
    for high in [0x11, 0x42, 0x83, 0xFE, 0xFF] {
        written(high, 2);
        written(3, high);
    }
    cases
}

/// What the length says, before a name of eight bytes and two tokens.
fn lengths_of_names() -> Vec<Case> {
    let behind = [name("abcd"), vec![code::EXISTS, code::NOT]].concat();
    let large = [
        0x0000_0100,
        0x0000_0108,
        0x0001_0000,
        0x0001_0008,
        0x0100_0008,
        0x7FFF_FFFE,
        0x7FFF_FFFF,
        0x8000_0000,
        0x8000_0008,
        0xFFFF_FFF4,
        0xFFFF_FFFC,
        0xFFFF_FFFE,
        0xFFFF_FFFF,
    ];
    let mut cases = Vec::new();
    for length in (0..16).chain(large) {
        let mut tokens = behind.clone();
        tokens[1..5].copy_from_slice(&u32::to_le_bytes(length));
        cases.push(by_nothing(tokens.clone()));
        cases.push(by_nothing(both(exists("a"), tokens)));
    }
    cases
}

/// Zeros, the signature and other tokens' first bytes inside names and
/// literals end nothing.
fn nothing_left_out() -> Vec<Case> {
    let odd = ["\0", "\0\0\0", "\u{7261}\u{7874}", "\u{A0A2}", "\u{F8F8}"];
    let mut cases: Vec<Case> = odd.iter().map(|text| by_nothing(exists(text))).collect();
    for value in [
        0,
        0x8787_8787_8787_8787_u64 as i64,
        -1,
        0x0300_0000_0000_0004,
    ] {
        let tokens = compared(literal(value), EQUAL, literal(value));
        cases.push(by_nothing(not(tokens)));
    }
    cases
}
