//! The call that translates a text.

use super::{Fault, LONGEST_TEXT, Refused, Said, Stored, join, machine, pieces};
use crate::answer::Answer;
use crate::condition::{MOST_DEPTH, MOST_TOKENS};

/// What the text says, or 16.
pub fn read(text: &[u8]) -> Result<Said, Refused> {
    if text.len() > LONGEST_TEXT {
        return Err(Refused::in_text(Fault::TooLong, LONGEST_TEXT));
    }
    machine::check(text)?;
    let text = str::from_utf8(text).expect("the machine lets ASCII through alone");
    Ok(join::join(pieces::cut(text)))
}

/// Its stored form, or 16 or 17.
pub fn translate(text: &[u8]) -> Result<Stored, Refused> {
    let stored = Stored::of(&read(text)?);
    let fault = match (stored.tokens > MOST_TOKENS, stored.depth > MOST_DEPTH) {
        (false, false) => return Ok(stored),
        (true, false) => Fault::Tokens,
        (false, true) => Fault::Depth,
        (true, true) => Fault::TokensAndDepth,
    };
    Err(Refused::as_a_whole(fault))
}

/// Fills the front of `out` with the stored form, or leaves it as it was.
pub fn try_condition(text: &[u8], out: &mut [u8]) -> Result<Stored, Refused> {
    let stored = translate(text)?;
    let front = out
        .get_mut(..stored.bytes.len())
        .ok_or(Refused::as_a_whole(Fault::Room))?;
    front.copy_from_slice(&stored.bytes);
    Ok(stored)
}

/// The eight numbers of the answer.
pub fn condition(text: &[u8], out: &mut [u8]) -> [u32; 8] {
    match try_condition(text, out) {
        Ok(stored) => Answer::done(stored.bytes.len(), stored.tokens).eight(),
        Err(refused) => refused.answer().eight(),
    }
}
