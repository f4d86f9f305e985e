//! Texts that are changed, mostly by bytes that mean something. Some stay
//! good.

use crate::random::Random;

/// What a text is made of, what comes before and behind those bytes, and some
/// that are none.
const TELLING: [u8; 40] = *b"aZ09=!<>&|()-===!!<>&&||(())--@[`{/:+ \0\xFF";
/// Longer pieces.
const PIECES: [&str; 20] = [
    "a",
    "b1",
    "0",
    "1",
    "-",
    "-9",
    "==",
    "!=",
    "<",
    "<=",
    ">",
    ">=",
    "&&",
    "||",
    "!",
    "(",
    ")",
    "a==1",
    "9223372036854775808",
    "b<2",
];

pub fn byte(random: &mut Random, old: u8) -> u8 {
    match random.below(8) {
        0 => old.wrapping_add(1),
        1 => old.wrapping_sub(1),
        2 => old ^ 1 << random.below(8),
        3 => random.byte(),
        _ => *random.pick(&TELLING),
    }
}

pub fn text(random: &mut Random, text: &mut Vec<u8>) {
    let at = random.below(text.len() + 1);
    let end = (at + 1 + random.below(4)).min(text.len());
    match random.below(10) {
        0..3 if at < text.len() => text[at] = byte(random, text[at]),
        3 => text.insert(at, *random.pick(&TELLING)),
        4 => {
            text.drain(at..end);
        }
        5 => text.truncate(at),
        6 => {
            let again = text[at..end].to_vec();
            text.splice(at..at, again);
        }
        7 if at + 1 < text.len() => text.swap(at, at + 1),
        8 => text.push(*random.pick(&TELLING)),
        _ => {
            let piece = random.pick(&PIECES).bytes();
            text.splice(at..at, piece);
        }
    }
}

/// So many pieces in any order.
pub fn pieces(random: &mut Random, count: usize) -> Vec<u8> {
    let pieces = (0..count).map(|_| *random.pick(&PIECES));
    pieces.collect::<String>().into_bytes()
}

/// So many bytes that texts are made of, in any order.
pub fn bytes(random: &mut Random, length: usize) -> Vec<u8> {
    (0..length).map(|_| *random.pick(&TELLING)).collect()
}
