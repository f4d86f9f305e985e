//! Expressions and tables that are changed, mostly where a test looks. Some
//! stay good.

use super::make::{literal, record_of, units};
use crate::condition::{MOST_NAMES, SIGNATURE, Token, code};
use crate::random::Random;

/// Bytes that mean something in one place or another.
const TELLING: [u8; 24] = [
    0x00, 0x01, 0x02, 0x03, 0x04, 0x05, 0x08, 0x10, 0x61, 0x80, 0x81, 0x82, 0x83, 0x84, 0x85, 0x86,
    0x87, 0xA0, 0xA1, 0xA2, 0xA3, 0xF8, 0xF9, 0xFF,
];

pub fn byte(random: &mut Random, old: u8) -> u8 {
    match random.below(6) {
        0 => old.wrapping_add(1),
        1 => old.wrapping_sub(1),
        2 => old ^ 1 << random.below(8),
        3 => random.byte(),
        _ => *random.pick(&TELLING),
    }
}

/// Changes one byte, if there is any.
fn change(random: &mut Random, bytes: &mut [u8]) {
    if !bytes.is_empty() {
        let at = random.below(bytes.len());
        bytes[at] = byte(random, bytes[at]);
    }
}

pub fn expression(random: &mut Random, bytes: &mut Vec<u8>) {
    match random.below(12) {
        0..4 => change(random, bytes),
        4..8 => change_tokens(random, bytes),
        8 => bytes.truncate(random.below(bytes.len() + 1)),
        9 => {
            let zeros = 1 + random.below(8);
            bytes.extend(vec![0; zeros]);
        }
        10 => bytes.extend([0, byte(random, 0)]),
        _ => {
            let at = random.below(bytes.len() + 1);
            bytes.insert(at, *random.pick(&TELLING));
        }
    }
}

/// The tokens as they lie, of bytes that begin with the signature and good
/// tokens.
fn tokens(bytes: &[u8]) -> Vec<Vec<u8>> {
    let mut tokens = Vec::new();
    let mut rest = bytes.strip_prefix(&SIGNATURE).unwrap_or_default();
    while let Ok((_, behind)) = Token::cut_off(rest) {
        tokens.push(rest[..rest.len() - behind.len()].to_vec());
        rest = behind;
    }
    tokens
}

/// Takes one away, puts one in, or changes places; the zeros go.
fn change_tokens(random: &mut Random, bytes: &mut Vec<u8>) {
    let mut all = tokens(bytes);
    if all.is_empty() {
        return change(random, bytes);
    }
    let at = random.below(all.len());
    match random.below(6) {
        0 => {
            all.remove(at);
        }
        1 => {
            let other = random.below(all.len());
            all.swap(at, other);
        }
        2 => all.insert(at, literal(1)),
        3 => all.insert(at + 1, vec![code::NOT]),
        4 => {
            let first = all[at][0];
            all[at][0] = byte(random, first);
        }
        _ => {
            let again = all[at].clone();
            all.insert(at, again);
        }
    }
    *bytes = [SIGNATURE.to_vec(), all.concat()].concat();
}

pub fn table(random: &mut Random, bytes: &mut Vec<u8>) {
    match random.below(10) {
        0..3 => change(random, bytes),
        3 => bytes.truncate(random.below(bytes.len() + 1)),
        4 => {
            let at = random.below(bytes.len() + 1);
            bytes.insert(at, *random.pick(&TELLING));
        }
        5 => bytes.extend(record_of(&[], 1)),
        6 => bytes.extend(record_of(b"abc", 1)),
        // One too many, if it had any.
        7 => {
            let names = MOST_NAMES - random.below(2);
            let records = (0..names as u8).map(|number| record_of(&[number, 0xD8], 1));
            bytes.extend(records.flatten());
        }
        // The first again, or one that may be there.
        8 => {
            let first = bytes.first_chunk::<2>().copied().unwrap_or_default();
            let length = 10 + usize::from(u16::from_le_bytes(first));
            let again = bytes.get(..length).unwrap_or_default().to_vec();
            bytes.extend(again);
        }
        _ => bytes.extend(record_of(&units("a"), 1)),
    }
}
