//! A condition's text is translated.

use std::hint::black_box;

use super::{Repeated, Side};
use crate::capi::{self, WhenEmpty};
use second::hex;
use second::wording;

/// Of 12 tokens, as an administrator types it.
const TYPED: &str = "level>=3&&!(dept==2||dept==7)";
/// Comparisons joined one by one, with a ! before them: 64 tokens.
const COMPARED: usize = 16;
/// Enough for every text.
const ROOM: usize = 1_255;

pub struct Translating {
    side: Side,
    text: String,
    out: Vec<u8>,
    answer: [u32; 8],
}

impl Translating {
    pub fn of_tokens(side: Side, tokens: usize) -> Option<Translating> {
        let text = match tokens {
            12 => TYPED.to_string(),
            64 => {
                let compared = |number| format!("name{number:02}=={number}");
                let row: Vec<String> = (0..COMPARED).map(compared).collect();
                format!("!({})", row.join("&&"))
            }
            _ => return None,
        };
        Some(Translating {
            side,
            text,
            out: vec![0; ROOM],
            answer: [0; 8],
        })
    }
}

impl Repeated for Translating {
    fn call(&mut self) {
        let text = black_box(self.text.as_bytes());
        let (out, answer) = (&mut self.out, &mut self.answer);
        match self.side {
            Side::Library => capi::wording::condition(text, out, answer, WhenEmpty::Null),
            Side::Second => *answer = wording::condition(text, out),
        }
        black_box(self);
    }

    fn outcome(&self) -> ([u32; 8], String) {
        (self.answer, hex::encode(&self.out))
    }
}
