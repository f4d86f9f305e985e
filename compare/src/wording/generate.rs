//! Fresh random texts: good ones of all sizes, some a little over the limits,
//! damaged ones, others of the grammar's bytes in any order, and long ones.

use second::cases::wording::damage;
use second::cases::wording::fresh::{Words, with_nots};
use second::cases::wording::make::nested;
use second::random::Random;
use second::wording::{LONGEST_TEXT, MOST_OPEN};

/// No call has to look at more.
const LONGEST: usize = 70_000;

pub struct Subject {
    pub words: Words,
    pub text: Vec<u8>,
}

pub fn subject(random: &mut Random) -> Subject {
    let words = Words::draw(random);
    let mut text = text(random, &words);
    if random.chance(1, 3) {
        for _ in 0..1 + random.below(3) {
            damage::text(random, &mut text);
        }
    }
    Subject { words, text }
}

fn text(random: &mut Random, words: &Words) -> Vec<u8> {
    match random.below(32) {
        0 => about_nesting(random, words),
        1 => about_the_longest(random, words),
        2 => over_long(random),
        3 => {
            let length = random.below(40);
            damage::bytes(random, length)
        }
        4 => {
            let count = random.below(12);
            damage::pieces(random, count)
        }
        5 => about_the_range(random, words),
        6 => with_many_nots(random, words),
        7 => words.ladder(random),
        _ => words.text(random),
    }
}

/// Eleven to thirteen parentheses at once, with a not before each or none.
fn about_nesting(random: &mut Random, words: &Words) -> Vec<u8> {
    let inside = words.of_size(random, 2);
    let inside = String::from_utf8(inside).expect("texts are ASCII");
    let open = MOST_OPEN - 1 + random.below(3);
    let nots = random.below(3);
    let group = nested(&inside, open, nots);
    let text = match random.below(4) {
        0 => format!("{group}&&{group}"),
        1 => format!("a<1||{group}"),
        _ => group,
    };
    text.into_bytes()
}

fn about_the_longest(random: &mut Random, words: &Words) -> Vec<u8> {
    let text = words.of_size(random, 8);
    let length = LONGEST_TEXT - 2 + random.below(5);
    words.filled(random, text, length)
}

/// Of any bytes, or of one.
fn over_long(random: &mut Random) -> Vec<u8> {
    let length = match random.below(20) {
        0 => LONGEST - random.below(10),
        1 => 1 + random.below(LONGEST),
        _ => LONGEST_TEXT + random.below(200),
    };
    match random.below(4) {
        0 => random.bytes(length),
        1 => vec![random.byte(); length],
        2 => damage::bytes(random, length),
        _ => "a".repeat(length).into_bytes(),
    }
}

/// An integer of nineteen digits or so, at either end of the range.
fn about_the_range(random: &mut Random, words: &Words) -> Vec<u8> {
    let zeros = "0".repeat(random.below(4));
    let begin = *random.pick(&[
        "922337203685477580",
        "922337203685477581",
        "99999999999999999",
    ]);
    let sign = *random.pick(&["", "-"]);
    let integer = format!("{sign}{zeros}{begin}{}", random.below(100));
    let text = match random.below(3) {
        0 => format!("{integer}<a"),
        1 => format!("a>={integer}"),
        _ => format!("{integer}!={integer}"),
    };
    let others = words.of_size(random, 3);
    [&others[..], b"&&", text.as_bytes()].concat()
}

fn with_many_nots(random: &mut Random, words: &Words) -> Vec<u8> {
    let text = words.of_size(random, 8);
    let nots = random.below(66);
    with_nots(random, text, nots)
}
