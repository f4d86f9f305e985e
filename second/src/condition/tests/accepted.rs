//! What is accepted, up to the limits.

use super::*;

fn acceptable(tokens: &[&str]) -> Result<usize, Unacceptable> {
    let bytes = stored(tokens);
    Expression::parse(&bytes).map(|expression| expression.length)
}

/// Signature 4, name 7, literal 11, comparison 1.
#[test]
fn the_length_is_without_the_zeros() {
    let condition = [A, ONE, EQUAL];
    assert_eq!(acceptable(&condition), Ok(23));
    for zeros in 0..9 {
        let tokens = [A, ONE, EQUAL, &"00".repeat(zeros)];
        assert_eq!(acceptable(&tokens), Ok(23));
    }
}

/// In a call: no zero, or those up to a multiple of four.
#[test]
fn zeros_in_a_call() {
    let with_zeros = |tokens: &[&str], zeros| {
        let zeros = "00".repeat(zeros);
        let found = evaluated(&[tokens, &[&zeros]].concat(), &[]);
        assert!(found == UNKNOWN || found == NOT_ACCEPTABLE);
        found == UNKNOWN
    };
    // 23 bytes: one zero; 24 bytes: none; 25: three; 26: two.
    let conditions: [(&[&str], usize); 4] = [
        (&[A, ONE, EQUAL], 1),
        (&[A, ONE, EQUAL, NOT], 0),
        (&[A, ONE, EQUAL, NOT, NOT], 3),
        (&[A, ONE, EQUAL, NOT, NOT, NOT], 2),
    ];
    for (tokens, padding) in conditions {
        for zeros in 0..9 {
            let expected = zeros == 0 || zeros == padding;
            assert_eq!(with_zeros(tokens, zeros), expected, "{padding} {zeros}");
        }
    }
}

/// n conditions, then n - 1 times and: the last comparison's two operands
/// stand above n - 1 conditions.
#[test]
fn depth() {
    for (conditions, depth) in [(1, 2), (2, 3), (14, 15), (15, 16)] {
        let bytes = stored(&side_by_side(conditions));
        let expression = Expression::parse(&bytes).unwrap();
        assert_eq!(expression.condition.depth(), depth);
        assert_eq!(evaluate(&bytes, &[]), TRUE);
    }
    // 63 tokens, and 17 deep.
    let tokens = side_by_side(16);
    assert_eq!(tokens.len(), 63);
    assert_eq!(acceptable(&tokens), Err(Unacceptable::TooDeep));
    // Exists is one lower than a comparison.
    let mut tokens = side_by_side(15);
    tokens.splice(0..0, [A, EXISTS]);
    tokens.push(OR);
    assert_eq!(acceptable(&tokens), Err(Unacceptable::TooDeep));
    let exists = [[A, EXISTS].repeat(16), vec![AND; 15]].concat();
    assert_eq!(evaluated(&exists, &record("6100", 5)), TRUE);
    let exists = [[A, EXISTS].repeat(17), vec![AND; 16]].concat();
    assert_eq!(acceptable(&exists), Err(Unacceptable::TooDeep));
}

fn side_by_side(conditions: usize) -> Vec<&'static str> {
    let each = [ONE, ONE, EQUAL].repeat(conditions);
    [each, vec![AND; conditions - 1]].concat()
}

/// Joined one by one, conditions stand never more than three deep.
#[test]
fn depth_is_no_matter_of_length() {
    let mut tokens = vec![ONE, ONE, EQUAL];
    for _ in 0..15 {
        tokens.extend([ONE, ONE, EQUAL, AND]);
    }
    let bytes = stored(&tokens);
    let expression = Expression::parse(&bytes).unwrap();
    assert_eq!((tokens.len(), expression.condition.depth()), (63, 3));
}

#[test]
fn sixty_four_tokens() {
    for (nots, expected) in [(60, TRUE), (61, FALSE), (62, NOT_ACCEPTABLE)] {
        let tokens = [vec![ONE, ONE, EQUAL], vec![NOT; nots]].concat();
        assert_eq!(evaluated(&tokens, &[]), expected, "{}", tokens.len());
    }
    let tokens = [vec![ONE, ONE, EQUAL], vec![NOT; 62]].concat();
    assert_eq!(acceptable(&tokens), Err(Unacceptable::TooManyTokens));
}

/// However long: the length of a name has 32 bits.
#[test]
fn long_names() {
    let name = "6100".repeat(20_000);
    let tokens = format!("F8 409C0000 {name}");
    assert_eq!(acceptable(&[&tokens, EXISTS]), Ok(4 + 5 + 40_000 + 1));
    assert_eq!(evaluated(&[&tokens, EXISTS], &record(&name, 0)), TRUE);
}
