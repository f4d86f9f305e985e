//! Texts as they are typed, cut at every place, without each byte, with each
//! byte twice, and with others in its place.

use super::make::fitting;
use crate::records::Case;

const TEXTS: [&str; 6] = [
    "a==1",
    "level>=3",
    "-7!=Site",
    "!(a<=1||b>2)",
    "a<1&&b2>-30||c==d",
    "((a==1)&&!b!=2)",
];

/// In the place of any byte.
const OTHERS: [u8; 14] = [
    0, b' ', b'+', b'-', b'=', b'!', b'<', b'&', b'|', b'(', b')', b'7', b'k', 0xFF,
];
/// One byte that is never taken stands for the others, in some of the texts.
const NEVER: [u8; 3] = [b'\n', b'_', 0x80];

pub fn cases() -> Vec<Case> {
    let mut texts = Vec::new();
    for (turn, text) in TEXTS.iter().map(|text| text.as_bytes()).enumerate() {
        let others = [&OTHERS[..], &[NEVER[turn % NEVER.len()]]].concat();
        for at in 0..=text.len() {
            texts.push(text[..at].to_vec());
        }
        for at in 0..text.len() {
            texts.push(spliced(text, at, 1, &[]));
            texts.push(spliced(text, at, 0, &text[at..=at]));
            texts.extend(others.iter().map(|&other| spliced(text, at, 1, &[other])));
        }
    }
    fitting(texts)
}

/// With other bytes in the place of so many.
fn spliced(text: &[u8], at: usize, length: usize, other: &[u8]) -> Vec<u8> {
    [&text[..at], other, &text[at + length..]].concat()
}
