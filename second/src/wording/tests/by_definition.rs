//! The grammar's rules taken as they stand, by trying every way to split a
//! text: slow, and for short texts alone.

use super::*;

fn is_condition(text: &str) -> bool {
    is_term(text) || splits(text, "||").any(|(left, right)| is_condition(left) && is_term(right))
}

fn is_term(text: &str) -> bool {
    is_factor(text) || splits(text, "&&").any(|(left, right)| is_term(left) && is_factor(right))
}

fn is_factor(text: &str) -> bool {
    let inside = text
        .strip_prefix('(')
        .and_then(|text| text.strip_suffix(')'));
    text.strip_prefix('!').is_some_and(is_factor)
        || inside.is_some_and(is_condition)
        || is_comparison(text)
}

fn is_comparison(text: &str) -> bool {
    ["==", "!=", "<", "<=", ">", ">="]
        .iter()
        .any(|sign| splits(text, sign).any(|(left, right)| is_operand(left) && is_operand(right)))
}

fn is_operand(text: &str) -> bool {
    let digits = text.strip_prefix('-').unwrap_or(text);
    let is_integer = !digits.is_empty() && digits.bytes().all(|byte| byte.is_ascii_digit());
    let is_name = text.starts_with(|c: char| c.is_ascii_alphabetic())
        && text.bytes().all(|byte| byte.is_ascii_alphanumeric());
    is_integer || is_name
}

/// What is before and behind the sign, wherever it stands.
fn splits<'a>(text: &'a str, sign: &'a str) -> impl Iterator<Item = (&'a str, &'a str)> {
    let places = (0..text.len()).filter(move |&at| text[at..].starts_with(sign));
    places.map(move |at| (&text[..at], &text[at + sign.len()..]))
}

/// Whether some text begins so: what such a beginning may lack is one of
/// these, and parentheses.
fn goes_on(beginning: &str) -> bool {
    let lacking = ["", "1", "1<1", "<1", "=1", "==1", "a<1", "&a<1", "|a<1"];
    lacking.iter().any(|lacking| {
        let mut text = format!("{beginning}{lacking}");
        for _ in 0..=beginning.len() {
            if is_condition(&text) {
                return true;
            }
            text.push(')');
        }
        false
    })
}

#[track_caller]
fn assert_by_definition(text: &str) {
    let found = translate(text.as_bytes()).map_err(|refused| refused.offset);
    if is_condition(text) {
        assert!(found.is_ok(), "{text}");
        return;
    }
    let longest = (0..=text.len())
        .rev()
        .find(|&length| goes_on(&text[..length]));
    assert_eq!(found.err(), longest, "{text}");
}

/// Every text of up to four bytes out of those that stand for all.
#[test]
fn all_short_texts() {
    let mut texts = vec![String::new()];
    let mut from = 0;
    for _ in 0..4 {
        let to = texts.len();
        for at in from..to {
            let longer = "a1-=!<&|() ".chars().map(|c| format!("{}{c}", texts[at]));
            let longer: Vec<String> = longer.collect();
            texts.extend(longer);
        }
        from = to;
    }
    assert_eq!(texts.len(), 1 + 11 + 121 + 1_331 + 14_641);
    for text in texts {
        assert_by_definition(&text);
    }
}

/// Every beginning of these, with every such byte behind it, and then `b<2`.
#[test]
fn longer_texts() {
    for text in [
        "a==1",
        "!(a<1)",
        "a!=-1||b<2",
        "a>=1&&!b<=c",
        "((a<1)&&b>2)",
        "!!a<b1",
    ] {
        for length in 0..=text.len() {
            for byte in "a1-=!<>&|()+".chars() {
                assert_by_definition(&format!("{}{byte}", &text[..length]));
                assert_by_definition(&format!("{}{byte}b<2", &text[..length]));
            }
        }
    }
}
