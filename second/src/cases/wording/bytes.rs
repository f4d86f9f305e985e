//! Every byte there is, in places where different ones are taken; and what is
//! no ASCII letter, digit or sign at the front, inside and at the end.

use super::make::fitting;
use crate::records::Case;

/// By itself, where a factor, the rest of a name, an operand or an operator is
/// asked for, and where the second byte of one is.
const BEFORE: [&str; 8] = ["", "a", "a=", "a<", "a==1", "a==1&", "(", "!"];
/// Where much the same is taken: no control bytes and none past ASCII.
const ALIKE: [&str; 3] = ["1", "-", "(a==1)"];

const STRANGE: [&str; 12] = [
    " ", "\t", "\n", "\r\n", "\0", "\u{e4}", "\u{430}", "\u{ff11}", "\u{feff}", "\u{a0}", ";", "\"",
];

pub fn cases() -> Vec<Case> {
    let with = |before: &str, byte| [before.as_bytes(), &[byte]].concat();
    let mut texts = Vec::new();
    for before in BEFORE {
        texts.extend(all_bytes().map(|byte| with(before, byte)));
    }
    for before in ALIKE {
        texts.extend((b' '..=0x80).map(|byte| with(before, byte)));
    }
    texts.extend(all_bytes().map(|byte| [&[byte], &b"==1"[..]].concat()));
    let mut cases = fitting(texts);
    cases.extend(fitting(strange()));
    cases
}

fn all_bytes() -> impl Iterator<Item = u8> {
    0..=u8::MAX
}

fn strange() -> Vec<String> {
    let parts = ["", "ab", "==", "-12", "&&", "(", "c", "<", "d", ")", ""];
    let mut texts = Vec::new();
    for strange in STRANGE {
        for at in 1..parts.len() {
            let (before, behind) = parts.split_at(at);
            texts.push([&before.concat(), strange, &behind.concat()].concat());
        }
        texts.push(strange.to_string());
        texts.push(format!("a{strange}b==1"));
        texts.push(format!("a={strange}=1"));
        texts.push(format!("a==1{strange}2"));
        texts.push(format!("a==1{}", strange.repeat(3)));
    }
    texts
}
