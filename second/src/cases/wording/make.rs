//! Texts, put together from their parts.

use crate::records::Case;
use crate::wording::translate;

/// Of `out`, in turn: behind the stored form, and where there is none.
const BEHIND: [usize; 4] = [0, 1, 0, 7];
const WITHOUT_FORM: [usize; 4] = [24, 0, 40, 4];

pub fn case(text: impl Into<Vec<u8>>, out_length: usize) -> Case {
    Case::Condition {
        text: text.into(),
        out_length: out_length as u16,
    }
}

/// With room for the stored form.
pub fn fitting<T: Into<Vec<u8>>>(texts: impl IntoIterator<Item = T>) -> Vec<Case> {
    let mut cases = Vec::new();
    for (turn, text) in texts.into_iter().enumerate() {
        let text = text.into();
        let turn = turn % BEHIND.len();
        let out_length = match translate(&text) {
            Ok(stored) => stored.bytes.len() + BEHIND[turn],
            Err(_) => WITHOUT_FORM[turn],
        };
        cases.push(case(text, out_length));
    }
    cases
}

/// So many parentheses, each behind so many nots.
pub fn nested(text: &str, open: usize, nots: usize) -> String {
    let begin = "!".repeat(nots) + "(";
    begin.repeat(open) + text + &")".repeat(open)
}

/// So many comparisons one behind the other, three deep.
pub fn in_a_row(comparisons: usize, sign: &str) -> String {
    vec!["a<1"; comparisons].join(sign)
}

/// So many steps, each a parenthesis with what is joined to it on its left,
/// and behind them the last factors.
pub fn ladder(step: &str, steps: usize, last: &str) -> String {
    format!("{}{last}{}", step.repeat(steps), ")".repeat(steps))
}

/// Each makes what is in its parenthesis one deeper.
pub const BY_ONE: [&str; 4] = ["a<1&&(", "a<1||(", "!a<1&&!(", "a<1&&b<2||("];
/// Each makes it two deeper.
pub const BY_TWO: [&str; 4] = [
    "a<1||b<2&&(",
    "a<1&&b<2||c<3&&(",
    "a<1||!b<2&&!(",
    "!a<1||(b<2)&&(",
];
/// By themselves two, three and four deep.
pub const LAST: [&str; 3] = ["x<y", "x<y&&z<1", "x<y||y<z&&z<1"];
