//! Random texts of few names and few integers, by the grammar's own rules.

use super::damage;
use super::make::fitting;
use crate::random::Random;
use crate::records::Case;
use crate::wording::{LONGEST_TEXT, MOST_OPEN};

const STORED: usize = 250;
const JOINS: [&str; 2] = ["&&", "||"];

/// As many good ones, and as many that are damaged.
pub fn cases(random: &mut Random) -> Vec<Case> {
    let mut texts = Vec::new();
    for _ in 0..STORED {
        let words = Words::draw(random);
        let mut text = words.text(random);
        texts.push(text.clone());
        for _ in 0..1 + random.below(2) {
            damage::text(random, &mut text);
        }
        texts.push(text);
    }
    fitting(texts)
}

/// What a text and the values of its names draw from.
pub struct Words {
    names: Vec<String>,
    numbers: Vec<i64>,
}

impl Words {
    pub fn draw(random: &mut Random) -> Words {
        let mut names: Vec<String> = (0..1 + random.below(5))
            .map(|_| some_name(random))
            .collect();
        names.sort();
        names.dedup();
        Words {
            names,
            numbers: (0..1 + random.below(3)).map(|_| number(random)).collect(),
        }
    }

    /// In the grammar, and seldom over a limit: small in most cases, now and
    /// then about as large or as deep as may be, or 512 bytes long.
    pub fn text(&self, random: &mut Random) -> Vec<u8> {
        let text = match random.below(16) {
            0 => self.about_64_tokens(random),
            1 => self.ladder(random),
            2 => {
                let text = self.of_size(random, 6);
                let length = LONGEST_TEXT - random.below(3);
                return self.filled(random, text, length);
            }
            3..7 => self.of_size(random, 16),
            _ => self.of_size(random, 4),
        };
        let nots = match random.below(4) {
            0 => random.below(4),
            _ => 0,
        };
        with_nots(random, text, nots)
    }

    /// At most so many comparisons.
    pub fn of_size(&self, random: &mut Random, most: usize) -> Vec<u8> {
        let comparisons = 1 + random.below(most);
        self.condition(random, comparisons, 0).into_bytes()
    }

    /// 16 comparisons have 63 tokens, 15 have 59.
    pub fn about_64_tokens(&self, random: &mut Random) -> Vec<u8> {
        let comparisons = 14 + random.below(3);
        let mut row = vec![self.comparison(random)];
        for _ in 1..comparisons {
            row.push(random.pick(&JOINS).to_string());
            row.push(self.comparison(random));
        }
        let nots = 62 + random.below(4) - (4 * comparisons - 1).min(62);
        with_nots(random, row.concat().into_bytes(), nots)
    }

    /// Each parenthesis has one or two conditions on its left that wait for
    /// it: up to 17 deep or a little more.
    pub fn ladder(&self, random: &mut Random) -> Vec<u8> {
        let comparisons = 12 + random.below(5);
        let (mut text, mut open, mut standing) = (String::new(), 0, 1);
        while standing < comparisons {
            text += &self.comparison(random);
            standing += 1;
            // Two wait in one parenthesis where the first is joined by or.
            if standing < comparisons && random.chance(4, 5) {
                text += "||";
                text += &self.comparison(random);
                text += "&&";
                standing += 1;
            } else {
                text += *random.pick(&JOINS);
            }
            if open < MOST_OPEN {
                text += "(";
                open += 1;
            }
        }
        text += &self.comparison(random);
        (text + &")".repeat(open)).into_bytes()
    }

    /// With one more comparison that makes it so long, if there is room.
    pub fn filled(&self, random: &mut Random, mut text: Vec<u8>, length: usize) -> Vec<u8> {
        let Some(left) = length.checked_sub(text.len() + 2 + 4) else {
            return text;
        };
        text.extend(random.pick(&JOINS).bytes());
        let zeros = random.below(left + 1);
        let name = random.pick(&["x", "y9"]).repeat(LONGEST_TEXT.max(left));
        text.extend(&name.as_bytes()[..1 + left - zeros]);
        text.extend(random.pick(&["==", "!=", "<=", ">="]).bytes());
        text.extend(vec![b'0'; zeros]);
        text.extend(b"7");
        text
    }

    fn condition(&self, random: &mut Random, comparisons: usize, open: usize) -> String {
        let terms = parts(random, comparisons).into_iter();
        let terms = terms.map(|comparisons| self.term(random, comparisons, open));
        terms.collect::<Vec<_>>().join("||")
    }

    fn term(&self, random: &mut Random, comparisons: usize, open: usize) -> String {
        let factors = parts(random, comparisons).into_iter();
        let factors = factors.map(|comparisons| self.factor(random, comparisons, open));
        factors.collect::<Vec<_>>().join("&&")
    }

    fn factor(&self, random: &mut Random, comparisons: usize, open: usize) -> String {
        let is_alone = comparisons == 1 && !random.chance(1, 8);
        if is_alone || open == MOST_OPEN {
            return self.comparison(random);
        }
        format!("({})", self.condition(random, comparisons, open + 1))
    }

    fn comparison(&self, random: &mut Random) -> String {
        let sign = *random.pick(&["==", "!=", "<", "<=", ">", ">="]);
        let (left, right) = (self.operand(random), self.operand(random));
        format!("{left}{sign}{right}")
    }

    fn operand(&self, random: &mut Random) -> String {
        match random.below(24) {
            0 => some_name(random),
            1..13 => random.pick(&self.names).clone(),
            _ => {
                let number = self.number(random);
                written(random, number)
            }
        }
    }

    fn number(&self, random: &mut Random) -> i64 {
        match random.below(8) {
            0 => number(random),
            1 => random.pick(&self.numbers).wrapping_add(1),
            _ => *random.pick(&self.numbers),
        }
    }

    /// Values for most of the names, in any order, and for some that no text
    /// has.
    pub fn values(&self, random: &mut Random) -> Vec<(String, i64)> {
        let mut names = self.names.clone();
        match random.below(8) {
            0 => names.clear(),
            1..4 => {}
            _ => names.retain(|_| random.chance(3, 4)),
        }
        if random.chance(1, 3) {
            names.push(some_name(random));
        }
        for at in (1..names.len()).rev() {
            names.swap(at, random.below(at + 1));
        }
        let mut values: Vec<(String, i64)> = Vec::new();
        for name in names {
            if values.iter().all(|(known, _)| *known != name) {
                values.push((name, self.number(random)));
            }
        }
        values
    }
}

/// Two or three in most cases; each is at least 1.
fn parts(random: &mut Random, whole: usize) -> Vec<usize> {
    let mut left = whole;
    let mut parts = Vec::new();
    while left > 1 && parts.len() < 3 && random.chance(2, 3) {
        let part = 1 + random.below(left - 1);
        parts.push(part);
        left -= part;
    }
    parts.push(left);
    parts
}

/// With so many nots, each before any factor.
pub fn with_nots(random: &mut Random, mut text: Vec<u8>, nots: usize) -> Vec<u8> {
    for _ in 0..nots {
        let places: Vec<usize> = (0..text.len())
            .filter(|&at| begins_factor(&text, at))
            .collect();
        text.insert(*random.pick(&places), b'!');
    }
    text
}

/// At the front, and behind a parenthesis or a whole operator.
fn begins_factor(text: &[u8], at: usize) -> bool {
    let before = at.checked_sub(1).map(|before| text[before]);
    match before {
        None | Some(b'(') => true,
        Some(b'&' | b'|') => !matches!(text[at], b'&' | b'|'),
        _ => false,
    }
}

/// Of one to three letters and digits out of a few, so that many begin others;
/// a few that are long.
fn some_name(random: &mut Random) -> String {
    let length = match random.below(30) {
        0 => random.below(60),
        1 => 5,
        _ => random.below(3),
    };
    let first = *random.pick(b"abcA");
    let others = (0..length).map(|_| *random.pick(b"abZ01"));
    let name = [first].into_iter().chain(others);
    name.map(char::from).collect()
}

fn number(random: &mut Random) -> i64 {
    match random.below(8) {
        0 => *random.pick(&[i64::MIN, i64::MIN + 1, -1, 0, 1, i64::MAX - 1, i64::MAX]),
        1 => random.draw() as i64,
        2 => 1 << random.below(64),
        _ => random.below(6) as i64 - 2,
    }
}

/// As it is, or with zeros in front; a zero with a minus at times.
fn written(random: &mut Random, number: i64) -> String {
    let zeros = match random.below(12) {
        0 => 1 + random.below(20),
        _ => 0,
    };
    let is_negative = number < 0 || (number == 0 && random.chance(1, 4));
    let sign = if is_negative { "-" } else { "" };
    format!("{sign}{}{}", "0".repeat(zeros), number.unsigned_abs())
}
