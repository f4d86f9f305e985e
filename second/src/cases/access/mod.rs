//! The stored questions who may open, and steps through lists.

mod bad_held;
mod bits;
mod computed;
mod conditional;
mod easy;
pub mod fresh;
mod held;
mod long;
pub mod make;
mod object_types;
mod orders;
mod refusals;
mod shapes;
mod spare;
mod steps;

use super::joined;
use crate::access::Question;
use crate::random::Random;
use crate::records::Case;

const SEED: u64 = 5;

/// All cases in the order of the file.
pub fn all() -> Vec<Case> {
    let mut random = Random::new(SEED);
    let questions = questions(&mut random).into_iter().map(Case::MayOpen);
    let mut all: Vec<Case> = questions.collect();
    all.extend(steps::cases(&mut random));
    all.extend(conditional::cases(&mut random));
    joined(Vec::new(), all)
}

fn questions(random: &mut Random) -> Vec<Question> {
    let mut questions = easy::questions(random);
    questions.extend(bits::questions());
    questions.extend(orders::questions());
    questions.extend(shapes::questions());
    questions.extend(object_types::questions());
    questions.extend(held::questions(random));
    questions.extend(bad_held::questions(random));
    questions.extend(refusals::questions());
    questions.extend(spare::questions(random));
    questions.extend(long::questions());
    questions.extend(fresh::questions(random));
    questions.extend(computed::questions());
    questions
}

#[cfg(test)]
mod tests {
    use super::*;
    use crate::access::Verdict;
    use crate::condition::{BadTable, Truth};
    use crate::records::encode_all;
    use crate::refusal::Fault;
    use crate::tally::Tally;

    #[test]
    fn every_answer_and_every_test_is_met_often() {
        let tally = Tally::of(&all());
        let often = |label: &str, least: usize| {
            let count = tally.count(label);
            assert!(count >= least, "{label}: {count}");
        };
        for verdict in Verdict::ALL {
            often(&format!("may open 0  {}", verdict.name()), 30);
            often(&format!("may open with 0  {}", verdict.name()), 10);
        }
        for fault in Fault::ALL.into_iter().filter(|fault| fault.is_of_list()) {
            let named = format!("{}  {}", fault.number(), fault.name());
            often(&format!("may open {named}"), 4);
            often(&format!("step {named}"), 2);
        }
        for truth in Truth::ALL {
            for what in ["allow", "deny"] {
                often(&format!("may open 0  {what}: {}", truth.name()), 90);
            }
        }
        for bad in BadTable::ALL {
            often(&format!("may open with 23  {}", bad.name()), 3);
        }
        for (label, least) in [
            ("may open 0  yes: every bit allowed", 400),
            ("may open 0  no: a bit denied", 300),
            ("may open 0  no: a bit unspoken", 300),
            ("may open 0  spare bytes", 90),
            ("may open 14  a generic bit wanted", 100),
            ("may open 6  held bytes aren't SIDs", 250),
            ("may open 7  over 32 SIDs held", 15),
            ("may open with 14  a generic bit wanted", 60),
            ("may open with 15  expression", 25),
            ("may open with 6  held bytes aren't SIDs", 10),
            ("may open with 7  over 32 SIDs held", 3),
            ("step 0  to an entry", 250),
            ("step 0  none left", 80),
            ("step 0  spare bytes", 50),
        ] {
            often(label, least);
        }
    }

    #[test]
    fn the_file_stays_small_and_the_same() {
        let cases = all();
        assert!((3_700..=4_600).contains(&cases.len()), "{}", cases.len());
        // Three of them have about 65,000 bytes.
        let file = encode_all(&cases);
        assert!(file.len() <= 850_000, "{}", file.len());
        assert_eq!(file, encode_all(&all()));
    }
}
