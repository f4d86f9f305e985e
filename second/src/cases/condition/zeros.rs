//! Zeros behind the tokens: none, those up to a multiple of four, and others.

use super::make::{evaluate, exists, negated, stored};
use crate::records::Case;

pub fn cases() -> Vec<Case> {
    let mut cases = Vec::new();
    // 12 bytes to 19, and some about 64.
    for nots in (0..8).chain(50..54) {
        let expression = stored(negated(exists("a"), nots));
        for zeros in 0..=8 {
            let with_zeros = followed(&expression, &vec![0; zeros]);
            cases.push(evaluate(with_zeros, Vec::new()));
        }
        cases.extend(bytes_behind(&expression));
    }
    cases
}

fn followed(expression: &[u8], tail: &[u8]) -> Vec<u8> {
    [expression, tail].concat()
}

/// A token, half of one and other bytes behind zeros, and zeros behind those.
fn bytes_behind(expression: &[u8]) -> Vec<Case> {
    let mut cases = Vec::new();
    for zeros in 1..=4 {
        for behind in [&[0xA2][..], &[0x01], &[0x80, 0], &exists("b")] {
            let tail = [&vec![0; zeros][..], behind].concat();
            cases.push(evaluate(followed(expression, &tail), Vec::new()));
        }
    }
    cases
}
