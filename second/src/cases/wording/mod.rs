//! The stored texts of conditions.

mod bytes;
mod changes;
pub mod damage;
pub mod fresh;
mod grammar;
mod lengths;
mod limits;
pub mod make;
mod nesting;
mod numbers;
mod rooms;

use super::joined;
use crate::random::Random;
use crate::records::Case;

const SEED: u64 = 7;

/// All cases in the order of the file.
pub fn all() -> Vec<Case> {
    let mut random = Random::new(SEED);
    let mut made = grammar::cases();
    made.extend(numbers::cases());
    made.extend(nesting::cases());
    made.extend(limits::cases());
    made.extend(rooms::cases());
    made.extend(lengths::cases());
    made.extend(bytes::cases());
    made.extend(changes::cases());
    made.extend(fresh::cases(&mut random));
    joined(Vec::new(), made)
}

#[cfg(test)]
mod tests {
    use super::*;
    use crate::records::encode_all;
    use crate::tally::Tally;
    use crate::wording::{Fault, translate};

    #[test]
    fn every_refusal_is_met_often() {
        let tally = Tally::of(&all());
        let often = |label: String, least: usize| {
            let count = tally.count(&label);
            assert!(count >= least, "{label}: {count}");
        };
        often("condition 0".to_string(), 1_000);
        for fault in Fault::ALL {
            often(
                format!("condition {}  {}", fault.number(), fault.name()),
                40,
            );
        }
    }

    /// Just within each limit, and just past it.
    #[test]
    fn limits_are_met_from_both_sides() {
        let cases = all();
        let texts: Vec<&[u8]> = cases.iter().map(text_of).collect();
        let forms: Vec<_> = texts.iter().flat_map(|text| translate(text)).collect();
        for depth in [15, 16] {
            assert!(forms.iter().any(|form| form.depth == depth), "{depth}");
        }
        for tokens in [62, 63, 64] {
            assert!(forms.iter().any(|form| form.tokens == tokens), "{tokens}");
        }
        assert!(
            forms
                .iter()
                .any(|form| (form.tokens, form.depth) == (64, 16))
        );
        assert!(
            texts
                .iter()
                .any(|text| text.len() == 512 && translate(text).is_ok())
        );
        assert!(texts.iter().any(|text| text.len() == 513));
    }

    fn text_of(case: &Case) -> &[u8] {
        match case {
            Case::Condition { text, .. } => text,
            _ => panic!("{case:?}"),
        }
    }

    #[test]
    fn the_file_stays_small_and_the_same() {
        let cases = all();
        assert!((4_000..=7_000).contains(&cases.len()), "{}", cases.len());
        let file = encode_all(&cases);
        assert!(file.len() <= 420_000, "{}", file.len());
        assert_eq!(file, encode_all(&all()));
    }
}
