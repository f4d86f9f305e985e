//! What is in the grammar and what isn't, and each test by its name.

use super::*;

#[test]
fn texts_that_are_taken() {
    for text in [
        "a==b",
        "a<b",
        "1<2",
        "-1<-2",
        "a<-1",
        "a<=-1",
        "a>-0",
        "A9z!=00",
        "!a==1",
        "!!!a==1",
        "!(a==1)",
        "!!((a==1))",
        "(!a==1)",
        "(a==1)",
        "(a==1)&&(b==2)",
        "(a==1||b==2)&&!c>=3||d<e",
        "a==1&&a==1&&a==1||a==1",
    ] {
        stored(text);
    }
}

#[test]
fn bytes_that_are_none_of_a_text() {
    for text in [
        " a==1",
        "\ta==1",
        "\na==1",
        "\0a==1",
        "+1==a",
        "_a==1",
        "@a==1",
        "#",
        "\"a\"==1",
        "\u{e4}==1",
    ] {
        assert_refused(text, Fault::Byte, 0);
    }
    for (text, at) in [
        ("a ==1", 1),
        ("a== 1", 3),
        ("a==1 ", 4),
        ("a==1\n", 4),
        ("a==1\0", 4),
        ("a_b==1", 1),
        ("a.b==1", 1),
        ("a==+1", 3),
        ("a==\u{e4}", 3),
    ] {
        assert_refused(text, Fault::Byte, at);
    }
}

#[test]
fn a_condition_is_made_of_comparisons() {
    for (text, at) in [
        ("a&&b==1", 1),
        ("1&&b==1", 1),
        ("a)", 1),
        ("(a)", 2),
        ("a==b==c", 4),
        ("a==1==c", 4),
        ("a<b<c", 3),
        ("(a==1)==1", 6),
        ("(a==1)a", 6),
        ("(a==1)(b==1)", 6),
        ("(a==1)!", 6),
        ("a==(b)", 3),
        ("a==!b", 3),
        ("a==1!b==2", 4),
        ("a==b!=c", 4),
        ("a==1)", 4),
        ("(a==1))", 6),
        (")", 0),
        ("()", 1),
        ("!)", 1),
        ("a==1&&)", 6),
    ] {
        assert_refused(text, Fault::Byte, at);
    }
}

#[test]
fn signs_that_are_written_otherwise() {
    for (text, at) in [
        ("a=1", 2),
        ("a=b", 2),
        ("a=", 2),
        ("a=<1", 2),
        ("a=>1", 2),
        ("a=!1", 2),
        ("a!1", 2),
        ("a!!=1", 2),
        ("a===1", 3),
        ("a!==1", 3),
        ("a<==1", 3),
        ("a>>1", 2),
        ("a<>1", 2),
        ("a<!1", 2),
        ("=a", 0),
        ("==1", 0),
        ("!=1", 1),
        ("<1", 0),
        ("&&a==1", 0),
        ("||a==1", 0),
        ("a==1&b==1", 5),
        ("a==1|b==1", 5),
        ("a==1&|b==1", 5),
        ("a==1|&b==1", 5),
        ("a==1&&&b==1", 6),
        ("a==1|||b==1", 6),
        ("a==1&&||b==1", 6),
        ("a==1||&&b==1", 6),
    ] {
        let fault = if at == text.len() {
            Fault::Ends
        } else {
            Fault::Byte
        };
        assert_refused(text, fault, at);
    }
}

#[test]
fn names_and_integers_as_they_are_written() {
    for (text, at) in [
        ("1a==1", 1),
        ("a==1a", 4),
        ("-a==1", 1),
        ("--1==a", 1),
        ("a==--1", 4),
        ("a-1==1", 1),
        ("1-1==a", 1),
        ("a==1-1", 4),
        ("a==-", 4),
        ("-", 1),
        ("-==1", 1),
        ("a==-)", 4),
        ("0x1==a", 1),
        ("1.5==a", 1),
        ("a==-b", 4),
    ] {
        let fault = if at == text.len() {
            Fault::Ends
        } else {
            Fault::Byte
        };
        assert_refused(text, fault, at);
    }
    // A digit is a name's where a letter began it, however many there are.
    let long = format!("a{0}==b{0}", "9".repeat(30));
    assert_eq!(stored(&long).bytes.len(), 4 + 2 * (5 + 62) + 1);
}
