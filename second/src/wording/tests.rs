mod by_definition;
mod forms;
mod grammar;
mod limits;
mod meanings;
mod offsets;

use super::*;
use crate::hex;

/// What refuses a text, and where.
fn refused(text: &str) -> (Fault, usize) {
    let refused = translate(text.as_bytes()).expect_err(text);
    (refused.fault, refused.offset)
}

#[track_caller]
fn assert_refused(text: &str, fault: Fault, offset: usize) {
    assert_eq!(refused(text), (fault, offset), "{text}");
    let mut out = [0xAA; 2_000];
    let expected = [fault.number(), 0, offset as u32, 0, 0, 0, 0, 0];
    assert_eq!(condition(text.as_bytes(), &mut out), expected, "{text}");
    assert_eq!(out, [0xAA; 2_000], "{text}");
}

#[track_caller]
fn stored(text: &str) -> Stored {
    translate(text.as_bytes()).unwrap_or_else(|refused| panic!("{text}: {refused:?}"))
}
