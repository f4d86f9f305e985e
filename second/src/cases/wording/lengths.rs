//! Texts of 512 bytes and of others about it; those that are longer are
//! refused before a byte is looked at.

use super::make::{case, fitting, in_a_row};
use crate::records::{Case, LONGEST_TEXT};
use crate::wording::translate;

pub fn cases() -> Vec<Case> {
    let lengths = [510, 511, 512, 513, 514, 600, LONGEST_TEXT];
    let mut texts = Vec::new();
    for length in lengths {
        texts.extend(good(length));
        texts.extend(cut(length));
        texts.extend(spoilt(length));
    }
    let mut cases = fitting(texts);
    // No room, and room for anything.
    for length in lengths {
        let text = good(length).swap_remove(0);
        let form = translate(&text).map_or(0, |stored| stored.bytes.len());
        for out_length in [0, 4, form.saturating_sub(1), 1_500] {
            cases.push(case(text.clone(), out_length));
        }
    }
    cases
}

/// In the grammar, if they weren't too long: a long name, a long integer, both
/// behind others, and many comparisons, parentheses and nots.
fn good(length: usize) -> Vec<Vec<u8>> {
    let name = "n".repeat(length - 3) + "==1";
    let integer = "a<-".to_string() + &"0".repeat(length - 4) + "7";
    let behind = in_a_row(4, "&&") + "||";
    let behind = format!("{behind}x<{}", "y".repeat(length - behind.len() - 2));
    let group = "(((a<1)))&&";
    let groups = group.repeat(15) + &"b".repeat(length - 15 * group.len() - 2) + "<1";
    let nots = "!".repeat(length - 3) + "a<1";
    [name, integer, behind, groups, nots]
        .map(String::into_bytes)
        .to_vec()
}

/// Stopping too early, each in another place.
fn cut(length: usize) -> Vec<Vec<u8>> {
    let name = "n".repeat(length);
    let integer = "a==".to_string() + &"0".repeat(length - 4) + "&";
    let opened = "(".to_string() + &"n".repeat(length - 4) + "<12";
    let sign = "n".repeat(length - 2) + "==";
    [name, integer, opened, sign]
        .map(String::into_bytes)
        .to_vec()
}

/// With a byte that is never taken at the front, before the end, at 511 and
/// behind; and of nothing else.
fn spoilt(length: usize) -> Vec<Vec<u8>> {
    let good = good(length).swap_remove(0);
    let mut texts = Vec::new();
    for at in [0, 100, 508, 511, 512, length - 1] {
        for byte in [0, b' ', 0xFF] {
            let mut text = good.clone();
            if let Some(place) = text.get_mut(at) {
                *place = byte;
                texts.push(text);
            }
        }
    }
    texts.extend([0, b' ', b'(', b')', 0xFF].map(|byte| vec![byte; length]));
    texts
}
