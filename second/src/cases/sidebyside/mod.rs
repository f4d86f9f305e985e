//! The stored pairs of lists that are compared.

mod alike;
mod changes;
pub mod fresh;
mod headers;
mod kinds;
mod limits;
pub mod make;
mod refusals;
mod rows;
mod spare;
mod words;

use super::joined;
use crate::random::Random;
use crate::records::Case;

const SEED: u64 = 8;

/// All cases in the order of the file.
pub fn all() -> Vec<Case> {
    let mut random = Random::new(SEED);
    let mut made = words::cases();
    made.extend(changes::cases());
    made.extend(alike::cases());
    made.extend(kinds::cases(&mut random));
    made.extend(headers::cases());
    made.extend(spare::cases(&mut random));
    made.extend(rows::cases());
    made.extend(refusals::cases());
    made.extend(limits::cases(&mut random));
    made.extend(fresh::cases(&mut random));
    joined(Vec::new(), made)
}

#[cfg(test)]
mod tests {
    use super::*;
    use crate::records::encode_all;
    use crate::refusal::Fault;
    use crate::sidebyside::{Tie, Which};
    use crate::tally::Tally;

    #[test]
    fn every_answer_and_every_test_is_met_often() {
        let tally = Tally::of(&all());
        let often = |label: &str, least: usize| {
            let count = tally.count(label);
            assert!(count >= least, "{label}: {count}");
        };
        for tie in Tie::ALL {
            often(&format!("compare 0  {}", tie.name()), 500);
        }
        for which in Which::ALL {
            for fault in Fault::ALL.into_iter().filter(|fault| fault.is_of_list()) {
                let named = format!("{}  {}: {}", fault.number(), which.name(), fault.name());
                often(&format!("compare {named}"), 2);
            }
        }
        for (label, least) in [
            ("compare 0  no entries", 40),
            ("compare 0  none is kept", 400),
            ("compare 0  all are kept", 250),
            ("compare 0  some are kept", 3_000),
            ("compare 0  headers differ", 3_000),
            ("compare 0  spare bytes differ", 400),
            ("compare 22  over 128 entries", 20),
            ("compare 8  row too short", 60),
        ] {
            often(label, least);
        }
    }

    #[test]
    fn the_file_stays_small_and_the_same() {
        let cases = all();
        assert!((3_000..=6_000).contains(&cases.len()), "{}", cases.len());
        // Three of them have about 65,000 bytes.
        let file = encode_all(&cases);
        assert!(file.len() <= 1_500_000, "{}", file.len());
        assert_eq!(file, encode_all(&all()));
    }
}
