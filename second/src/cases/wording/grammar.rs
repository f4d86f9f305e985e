//! Each rule of the grammar: what it takes, and what it nearly takes.

use super::make::fitting;
use crate::records::Case;

const COMPARISONS: [&str; 6] = ["==", "!=", "<", "<=", ">", ">="];
const JOINS: [&str; 2] = ["&&", "||"];

pub fn cases() -> Vec<Case> {
    let mut texts = comparisons();
    texts.extend(names());
    texts.extend(two_joined());
    texts.extend(three_joined());
    texts.extend(four_joined());
    texts.extend(nots());
    texts.extend(NEARLY.map(str::to_string));
    fitting(texts)
}

/// A name, an integer or a negative one on each side.
fn comparisons() -> Vec<String> {
    let operands = ["a", "Level2", "7", "-12"];
    let mut texts = Vec::new();
    for comparison in COMPARISONS {
        for left in operands {
            texts.extend(operands.map(|right| format!("{left}{comparison}{right}")));
        }
    }
    texts
}

/// Of every letter, of every digit behind one, and of many lengths.
fn names() -> Vec<String> {
    let mut texts = Vec::new();
    for letter in ('A'..='Z').chain('a'..='z') {
        texts.push(format!("{letter}=={letter}{letter}"));
    }
    texts.extend(('0'..='9').map(|digit| format!("a{digit}=={digit}")));
    for length in (1..=20).chain([63, 64, 127, 128, 129, 255, 256, 400]) {
        texts.push(format!("{}<0", "n".repeat(length)));
        texts.push(format!("0<N{}", "9".repeat(length - 1)));
    }
    texts
}

fn two_joined() -> Vec<String> {
    let factors = ["a==1", "!b<2", "(c>3)", "!(d!=-4)"];
    let mut texts = Vec::new();
    for join in JOINS {
        for left in factors {
            texts.extend(factors.map(|right| format!("{left}{join}{right}")));
        }
    }
    texts
}

/// By each two operators, in each grouping, with a not before each of them or
/// not.
fn three_joined() -> Vec<String> {
    let mut texts = Vec::new();
    for first in JOINS {
        for second in JOINS {
            for nots in 0..16 {
                let not = |place: usize| if nots >> place & 1 == 1 { "!" } else { "" };
                let [a, b, c] = [("a==1", 0), ("b==2", 1), ("c==3", 2)]
                    .map(|(text, place)| format!("{}{text}", not(place)));
                let group = not(3);
                texts.push(format!("{group}({a}{first}{b}){second}{c}"));
                texts.push(format!("{a}{first}{group}({b}{second}{c})"));
                if group.is_empty() {
                    texts.push(format!("{a}{first}{b}{second}{c}"));
                }
            }
        }
    }
    texts
}

fn four_joined() -> Vec<String> {
    let mut texts = Vec::new();
    for turn in 0..8 {
        let [first, second, third] = [0, 1, 2].map(|place| JOINS[turn >> place & 1]);
        let (a, b, c, d) = ("a<1", "b<2", "c<3", "d<4");
        texts.extend([
            format!("{a}{first}{b}{second}{c}{third}{d}"),
            format!("({a}{first}{b}){second}({c}{third}{d})"),
            format!("{a}{first}({b}{second}{c}){third}{d}"),
            format!("{a}{first}({b}{second}({c}{third}{d}))"),
            format!("(({a}{first}{b}){second}{c}){third}{d}"),
            format!("{a}{first}({b}{second}{c}{third}{d})"),
            format!("({a}{first}{b}{second}{c}){third}{d}"),
        ]);
    }
    texts
}

fn nots() -> Vec<String> {
    let mut texts = Vec::new();
    for count in 0..=6 {
        let nots = "!".repeat(count);
        texts.extend([
            format!("{nots}a==1"),
            format!("{nots}(a==1)"),
            format!("({nots}a==1)"),
            format!("a==1&&{nots}b==2"),
            format!("{nots}a!=-1||b==2"),
            nots.clone(),
            format!("{nots}="),
        ]);
    }
    texts
}

const NEARLY: [&str; 96] = [
    "",
    "a",
    "1",
    "-",
    "-1",
    "(",
    ")",
    "()",
    "!",
    "!!",
    "=",
    "==",
    "<",
    "&",
    "&&",
    "|",
    "||",
    "a=",
    "a==",
    "a!",
    "a!=",
    "a<",
    "a<=",
    "a>",
    "a>=",
    "a=1",
    "a=<1",
    "a=>1",
    "a=!1",
    "a===1",
    "a!==1",
    "a<==1",
    "a<<1",
    "a<>1",
    "a><1",
    "a>>1",
    "a<!1",
    "a!1",
    "a!!=1",
    "==1",
    "!=1",
    "<1",
    "a&&b",
    "a||b",
    "a&&b==1",
    "(a)",
    "(a)==1",
    "(a==1",
    "a==1)",
    "((a==1)",
    "(a==1))",
    "a==(1)",
    "a==!1",
    "a==b==c",
    "1==1==1",
    "a<b<c",
    "(a==1)==1",
    "(a==1)a",
    "(a==1)1",
    "(a==1)(b==1)",
    "(a==1)!",
    "(a==1)-1",
    "a==1!b==1",
    "a==1(b==1)",
    "a==1&b==1",
    "a==1|b==1",
    "a==1&|b==1",
    "a==1|&b==1",
    "a==1&&&b==1",
    "a==1|||b==1",
    "a==1&&||b==1",
    "a==1||&&b==1",
    "a==1&&",
    "a==1||",
    "a==1&",
    "a==1|",
    "&&a==1",
    "||a==1",
    "a==1&&)",
    "(a==1&&)",
    "(&&a==1)",
    "!)",
    "!&&",
    "(!)",
    "1a==1",
    "a==1a",
    "-a==1",
    "a==-b",
    "a-1==1",
    "a==1-1",
    "1-1==a",
    "0x1==a",
    "1.5==a",
    "1e3==a",
    "TRUE",
    "a==1,b==1",
];
