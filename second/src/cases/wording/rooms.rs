//! The length of `out`: one short, exact, one more, and others.

use super::make::{BY_TWO, LAST, case, in_a_row, ladder};
use crate::records::Case;
use crate::wording::translate;

pub fn cases() -> Vec<Case> {
    let texts = [
        "a==1".to_string(),
        "abc<=-5".to_string(),
        "!(a==1||b==2)&&c>3".to_string(),
        in_a_row(16, "&&"),
        "!".to_string() + &in_a_row(16, "||"),
        ladder(BY_TWO[0], 7, LAST[0]),
        "n".repeat(200) + "==" + &"m".repeat(200),
    ];
    let mut cases = Vec::new();
    for text in texts {
        let form = translate(text.as_bytes()).expect("it is good").bytes.len();
        let about = form - 5..=form + 5;
        let others = [0, 1, 3, 4, 5, form / 2, form + 100];
        for out_length in about.chain(others) {
            cases.push(case(text.clone(), out_length));
        }
        // 16 comes before 8.
        for out_length in [0, form - 1, form, form + 40] {
            cases.push(case(format!("{text}&"), out_length));
            cases.push(case(format!("{text} "), out_length));
        }
    }
    // Every length there is about the shortest form.
    cases.extend((0..=30).map(|out_length| case("a<b", out_length)));
    cases
}
