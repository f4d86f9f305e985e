//! What is not acceptable, and by which test.

use super::*;

#[track_caller]
fn assert_refused(tokens: &[&str], expected: Unacceptable) {
    let bytes = stored(tokens);
    assert_eq!(Expression::parse(&bytes), Err(expected));
    assert_eq!(evaluate(&bytes, &[]), NOT_ACCEPTABLE);
    // 15 comes before 23.
    assert_eq!(evaluate(&bytes, &[0]), NOT_ACCEPTABLE);
}

#[test]
fn signature() {
    let good = stored(&[A, EXISTS]);
    assert_eq!(evaluate(&good, &[]), FALSE);
    for at in 0..4 {
        let mut bytes = good.clone();
        bytes[at] ^= 1;
        assert_eq!(Expression::parse(&bytes), Err(Unacceptable::Signature));
    }
    for length in 0..4 {
        let cut = &good[..length];
        assert_eq!(Expression::parse(cut), Err(Unacceptable::Signature));
        assert_eq!(evaluate(cut, &[]), NOT_ACCEPTABLE);
    }
    assert_eq!(evaluate(&good[4..], &[]), NOT_ACCEPTABLE);
}

#[test]
fn no_token_at_all() {
    assert_refused(&[], Unacceptable::OperandMissing);
    assert_refused(&["00000000"], Unacceptable::OperandMissing);
}

#[test]
fn other_tokens_of_the_stored_form() {
    // Literals of 8, 16 and 32 bits, a string, octets, a composite and a SID;
    // Contains, Any_of, Not_Contains, Not_Exists; user, resource and device
    // names; and bytes that are no token anywhere.
    for byte in [
        "01", "02", "03", "05", "10", "18", "50", "51", "86", "88", "89", "8D", "8E", "8F", "90",
        "A3", "9F", "7F", "F7", "F9", "FA", "FB", "FC", "FF",
    ] {
        assert_refused(&[byte], Unacceptable::UnknownToken);
        assert_refused(&[A, EXISTS, byte], Unacceptable::UnknownToken);
    }
}

#[test]
fn cut_tokens() {
    let literal = bytes(ONE);
    for length in 1..literal.len() {
        let cut = hex::encode(&literal[..length]);
        assert_refused(&[A, &cut], Unacceptable::TokenCut);
    }
    let name = bytes(LEVEL);
    for length in 1..name.len() {
        let cut = hex::encode(&name[..length]);
        assert_refused(&[&cut], Unacceptable::TokenCut);
    }
    // One byte past the end, and the longest length there is.
    assert_refused(&["F8 04000000 6100 61"], Unacceptable::TokenCut);
    assert_refused(&["F8 FEFFFFFF 6100", EXISTS], Unacceptable::TokenCut);
}

#[test]
fn sign_and_base_are_1_to_3() {
    for bad in ["00", "04", "10", "80", "FF"] {
        for written in [format!("{bad} 02"), format!("03 {bad}")] {
            let literal = format!("04 0100000000000000 {written}");
            assert_refused(&[A, &literal, EQUAL], Unacceptable::SignOrBase);
        }
    }
}

#[test]
fn lengths_of_names() {
    assert_refused(&["F8 00000000", EXISTS], Unacceptable::NameLength);
    assert_refused(&["F8 01000000 61", EXISTS], Unacceptable::NameLength);
    assert_refused(&["F8 03000000 610062", EXISTS], Unacceptable::NameLength);
    // The low sixteen bits alone would be a good length.
    assert_refused(&["F8 02000100 6100", EXISTS], Unacceptable::TokenCut);
}

#[test]
fn only_zeros_behind_a_zero() {
    assert_refused(&[A, EXISTS, "00 01"], Unacceptable::BehindZeros);
    assert_refused(&[A, EXISTS, "000000 A2"], Unacceptable::BehindZeros);
    assert_refused(&["00", A, EXISTS], Unacceptable::BehindZeros);
}

#[test]
fn too_few_operands() {
    for operator in ["80", "81", "82", "83", "84", "85", EXISTS, AND, OR, NOT] {
        assert_refused(&[operator], Unacceptable::OperandMissing);
    }
    assert_refused(&[A, EQUAL], Unacceptable::OperandMissing);
    assert_refused(&[A, EXISTS, AND], Unacceptable::OperandMissing);
    assert_refused(&[A, EXISTS, OR], Unacceptable::OperandMissing);
}

#[test]
fn operands_of_the_wrong_kind() {
    let condition = format!("{A} {EXISTS}");
    // A condition is never compared.
    for operator in ["80", "81", "82", "83", "84", "85"] {
        assert_refused(&[&condition, ONE, operator], Unacceptable::WrongKind);
        assert_refused(&[ONE, &condition, operator], Unacceptable::WrongKind);
        assert_refused(&[&condition, &condition, operator], Unacceptable::WrongKind);
    }
    assert_refused(&[ONE, EXISTS], Unacceptable::WrongKind);
    assert_refused(&[&condition, EXISTS], Unacceptable::WrongKind);
    // and, or, not are over conditions only.
    for operand in [A, ONE] {
        assert_refused(&[operand, NOT], Unacceptable::WrongKind);
        for operator in [AND, OR] {
            assert_refused(&[operand, &condition, operator], Unacceptable::WrongKind);
            assert_refused(&[&condition, operand, operator], Unacceptable::WrongKind);
        }
    }
}

#[test]
fn one_condition_is_left() {
    assert_refused(&[A], Unacceptable::WrongKind);
    assert_refused(&[ONE], Unacceptable::WrongKind);
    assert_refused(&[A, EXISTS, A, EXISTS], Unacceptable::NotAlone);
    assert_refused(&[ONE, A, EXISTS], Unacceptable::NotAlone);
    assert_refused(&[A, EXISTS, ONE], Unacceptable::WrongKind);
}
