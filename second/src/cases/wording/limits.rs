//! At most 64 tokens and depth 16 in the translation: one of them passed, the
//! other, or both.

use super::make::{BY_ONE, BY_TWO, LAST, case, fitting, in_a_row, ladder, nested};
use crate::records::Case;
use crate::wording::{MOST_OPEN, translate};

pub fn cases() -> Vec<Case> {
    let mut texts = many_tokens();
    texts.extend(deep());
    texts.extend(all_standing());
    texts.extend(deep_and_long());
    let mut cases = fitting(texts);
    cases.extend(order());
    cases
}

/// n comparisons have 4 n - 1 tokens, and each not one more: 60 to 67.
fn many_tokens() -> Vec<String> {
    let mut texts = Vec::new();
    for tokens in 60..=67 {
        for sign in ["&&", "||"] {
            let nots = "!".repeat((tokens + 1) % 4);
            let row = in_a_row(tokens / 4 + usize::from(tokens % 4 == 3), sign);
            texts.push(format!("{nots}{row}"));
            texts.push(format!("{nots}({row})"));
            texts.push(row.replacen("&&a", &format!("&&{nots}a"), 1));
        }
        texts.push("!".repeat(tokens - 3) + "a==1");
        texts.push("!".repeat(tokens - 3) + "(a==1)");
        texts.push(nested("a==1", 12, (tokens - 3) / 12));
        texts.push("!".repeat(tokens - 7) + "a==1&&b==2");
    }
    texts.extend([100, 300, 500, 508].map(|nots| "!".repeat(nots) + "a==1"));
    texts.extend([20, 60, 100].map(|comparisons| in_a_row(comparisons, "||")));
    texts
}

/// Up to twelve steps of one or of two; in the middle of a row too.
fn deep() -> Vec<String> {
    let mut texts = Vec::new();
    for last in LAST {
        for steps in 10..=13 {
            texts.extend(BY_ONE.map(|step| ladder(step, steps, last)));
        }
        for steps in 5..=8 {
            texts.extend(BY_TWO.map(|step| ladder(step, steps, last)));
            let deep = ladder(BY_TWO[0], steps, last);
            texts.push(format!("{deep}&&u<v"));
            texts.push(format!("u<v&&{deep}"));
            texts.push(format!("u<v||({deep})||u<v"));
        }
    }
    texts
}

/// One deeper than there are comparisons, each way there is; 15 have 59 tokens
/// and 16 have 63.
fn all_standing() -> Vec<String> {
    let mut texts = Vec::new();
    for (comparisons, nots) in [(14, 0..=0), (15, 0..=6), (16, 0..=2), (17, 0..=0)] {
        for (turn, text) in ladders(comparisons).into_iter().enumerate() {
            let all = nots.clone().count();
            let nots = "!".repeat(turn % all);
            texts.push(format!("{nots}({text})"));
            texts.push(text.replacen("b<2", &format!("{nots}b<2"), 1));
            texts.push(text);
        }
    }
    texts
}

/// So many comparisons that all stand at once: by steps of two and of one,
/// those first or these.
fn ladders(comparisons: usize) -> Vec<String> {
    let mut texts = Vec::new();
    for (last, in_last) in LAST.into_iter().zip(1..) {
        for twos in 0..=(comparisons - in_last) / 2 {
            let ones = comparisons - in_last - 2 * twos;
            let steps = ones + twos;
            if steps > MOST_OPEN {
                continue;
            }
            let (ones, twos) = (BY_ONE[twos % 2].repeat(ones), BY_TWO[0].repeat(twos));
            let closed = ")".repeat(steps);
            texts.push(format!("{ones}{twos}{last}{closed}"));
            texts.push(format!("{twos}{ones}{last}{closed}"));
        }
    }
    texts
}

/// A deep part first and last in a text of about 64 tokens.
fn deep_and_long() -> Vec<String> {
    let mut texts = Vec::new();
    for steps in 5..=8 {
        let deep = ladder(BY_TWO[0], steps, LAST[0]);
        for more in 1..=3 {
            let row = in_a_row(more, "||");
            texts.push(format!("{deep}||{row}"));
            texts.push(format!("{row}||{deep}"));
        }
    }
    texts
}

/// 17 before 8, and 16 before both, whatever `out` is.
fn order() -> Vec<Case> {
    let too_many = in_a_row(17, "&&");
    let too_deep = ladder(BY_TWO[0], 7, LAST[1]);
    let mut cases = Vec::new();
    for text in [too_many, too_deep] {
        assert!(translate(text.as_bytes()).is_err_and(|refused| refused.fault.number() == 17));
        for out_length in [0, 3, 4, 100, 1_000] {
            cases.push(case(text.clone(), out_length));
            for behind in ["&", "&&", ")", " ", "&&(", "=="] {
                cases.push(case(format!("{text}{behind}"), out_length));
            }
            cases.push(case(
                format!("{text}&&{}", nested("a<1", 13, 0)),
                out_length,
            ));
            let past = format!("{text}&&a<9223372036854775808");
            cases.push(case(past, out_length));
        }
    }
    cases
}
