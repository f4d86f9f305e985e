//! Up to twelve parentheses open at once, and more.

use super::make::{fitting, nested};
use crate::records::Case;

pub fn cases() -> Vec<Case> {
    let mut texts = Vec::new();
    for open in (0..=14).chain([25, 200]) {
        texts.push("(".repeat(open));
        texts.push("!(".repeat(open));
        for nots in 0..=2 {
            texts.push(nested("a==1", open, nots));
        }
        texts.push(nested("a==1", open, 1) + "&&b==2");
        texts.push(format!("a==1||{}", nested("b==2", open, 0)));
        texts.push(nested("a==1&&b==2", open, 0));
    }
    texts.extend(unbalanced());
    texts.extend(groups());
    texts.extend(up_and_down());
    fitting(texts)
}

/// One too few closed, one too many, one more where it is whole.
fn unbalanced() -> Vec<String> {
    let mut texts = Vec::new();
    for open in 0..=13 {
        let whole = nested("a==1", open, 0);
        texts.push(whole[..whole.len() - 1].to_string());
        texts.push(format!("{whole})"));
        texts.push(format!("{whole}("));
        texts.push(format!("{whole}&&("));
        texts.push(format!("({whole}"));
    }
    texts
}

/// One after the other: those that are closed don't count.
fn groups() -> Vec<String> {
    let mut texts = Vec::new();
    for open in 10..=13 {
        let group = nested("a<1", open, 0);
        texts.push(format!("{group}&&{group}"));
        texts.push(format!("{group}||{group}&&{group}"));
        texts.push(format!("({group}&&{group})"));
        texts.push(format!("((a<1)&&{group})"));
        texts.push(format!("((a<1||{group}))"));
    }
    texts
}

/// Open, one closed, some opened again.
fn up_and_down() -> Vec<String> {
    let mut texts = Vec::new();
    for closed in 1..=3 {
        for opened in closed - 1..=closed + 1 {
            let begin = format!("{}a<1{}&&", "(".repeat(12), ")".repeat(closed));
            let left = 12 - closed;
            texts.push(begin + &nested("b<2", opened, 0) + &")".repeat(left));
        }
    }
    texts
}
