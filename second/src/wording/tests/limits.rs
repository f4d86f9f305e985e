//! 64 tokens and depth 16 in the translation; what comes before what.

use super::*;

/// So many comparisons, one joined to the next from the left: three deep.
fn in_a_row(comparisons: usize) -> String {
    vec!["a<1"; comparisons].join("&&")
}

/// So many comparisons that all stand at once: each is joined to all that come
/// behind it. Each level of parentheses has two of them in front.
fn on_top_of_each_other(comparisons: usize) -> String {
    let levels = (comparisons - 1) / 2;
    let mut text = "a<1||b<2&&(".repeat(levels);
    text += match comparisons % 2 {
        0 => "c<3&&d<4",
        _ => "c<3",
    };
    text + &")".repeat(levels)
}

#[test]
fn depth_of_what_is_joined() {
    for (text, depth) in [
        ("a==1", 2),
        ("!a==1", 2),
        ("a==1&&b==1", 3),
        ("a==1&&b==1&&c==1", 3),
        ("a==1||b==1&&c==1", 4),
        ("a==1&&b==1||c==1&&d==1", 4),
        ("a==1&&(b==1&&(c==1&&d==1))", 5),
        ("((a==1&&b==1)&&c==1)&&d==1", 3),
        ("a==1||b==1&&(c==1||d==1&&e==1)", 6),
    ] {
        assert_eq!(stored(text).depth, depth, "{text}");
    }
    assert_eq!(stored(&in_a_row(16)).depth, 3);
}

/// n comparisons have 4 n - 1 tokens, and each not one more.
#[test]
fn at_most_64_tokens() {
    assert_eq!(stored(&in_a_row(16)).tokens, 63);
    assert_eq!(stored(&format!("!{}", in_a_row(16))).tokens, 64);
    assert_refused(&format!("!!{}", in_a_row(16)), Fault::Tokens, 0);
    assert_refused(&in_a_row(17), Fault::Tokens, 0);
    for (nots, tokens) in [(60, 63), (61, 64)] {
        assert_eq!(stored(&format!("{}a<1", "!".repeat(nots))).tokens, tokens);
    }
    assert_refused(&format!("{}a<1", "!".repeat(62)), Fault::Tokens, 0);
    assert_refused(&format!("{}a<1", "!".repeat(509)), Fault::Tokens, 0);
}

/// n comparisons on top of each other are n + 1 deep.
#[test]
fn at_most_16_deep() {
    for comparisons in 1..=15 {
        let text = on_top_of_each_other(comparisons);
        assert_eq!(stored(&text).depth, comparisons + 1, "{text}");
    }
    assert_eq!(stored(&on_top_of_each_other(15)).tokens, 59);
    assert_refused(&on_top_of_each_other(16), Fault::Depth, 0);
    assert_refused(&format!("!{}", on_top_of_each_other(16)), Fault::Depth, 0);
    let both = format!("!!{}", on_top_of_each_other(16));
    assert_refused(&both, Fault::TokensAndDepth, 0);
    assert_refused(&on_top_of_each_other(17), Fault::TokensAndDepth, 0);
    assert_refused(&on_top_of_each_other(25), Fault::TokensAndDepth, 0);
}

#[test]
fn in_order_16_17_8() {
    let too_many = in_a_row(17);
    for length in [0, 4, 2_000] {
        let mut out = vec![0xAA; length];
        let answer = condition(too_many.as_bytes(), &mut out);
        assert_eq!(answer, [17, 0, 0, 0, 0, 0, 0, 0]);
        let bad = format!("{too_many}&");
        let answer = condition(bad.as_bytes(), &mut out);
        assert_eq!(answer, [16, 0, bad.len() as u32, 0, 0, 0, 0, 0]);
        assert_eq!(out, vec![0xAA; length]);
    }
    assert_eq!(condition(b"a==", &mut []), [16, 0, 3, 0, 0, 0, 0, 0]);
    assert_eq!(condition(b"a==1", &mut []), [8, 0, 0, 0, 0, 0, 0, 0]);
}
