//! The stored cases for reading lists and identities.

mod boundaries;
mod byte_changes;
mod conditional;
mod fault_pairs;
pub(super) mod identities;
mod noise;
mod rows;
mod single_faults;
mod spare;
mod valid;

use super::joined;
use crate::examples::Example;
use crate::random::Random;
use crate::records::Case;

const SEED: u64 = 1;

/// All cases in the order of the file; the examples written by hand come first.
pub fn all(examples: &[Example]) -> Vec<Case> {
    let mut random = Random::new(SEED);
    let mut made = Vec::new();
    made.extend(valid::cases(&mut random));
    made.extend(single_faults::cases());
    made.extend(fault_pairs::cases());
    made.extend(byte_changes::cases(&mut random));
    made.extend(noise::cases(&mut random));
    made.extend(boundaries::cases());
    made.extend(rows::cases(&mut random));
    made.extend(identities::cases(&mut random));
    made.extend(spare::cases(&mut random));
    made.extend(conditional::cases(&mut random));

    joined(examples.iter().map(Example::case).collect(), made)
}

/// Rows at least as long as the count, some with elements past it.
fn ample_row(count: usize, place: usize) -> usize {
    count + place % 3
}

#[cfg(test)]
mod tests {
    use super::*;
    use crate::records::encode_all;
    use crate::refusal::Fault;
    use crate::tally::Tally;

    #[test]
    fn every_test_is_reached_often() {
        let tally = Tally::of(&all(&[]));
        for fault in Fault::ALL {
            let label = format!("read {}  {}", fault.number(), fault.name());
            assert!(tally.count(&label) >= 15, "{label}");
        }
        for label in ["read 0", "identity 0", "identity 6"] {
            assert!(tally.count(label) >= 100, "{label}");
        }
        assert!(tally.count("read 0  spare bytes") >= 300);
        assert!(tally.count("read 15  expression") >= 200);
        for label in ["identity 1", "identity 2"] {
            assert!(tally.count(label) >= 1, "{label}");
        }
    }

    #[test]
    fn the_file_stays_small_and_the_same() {
        let cases = all(&[]);
        // Eleven of them have about 65,000 bytes, half of those spare bytes.
        assert!(encode_all(&cases).len() <= 1_800_000);
        assert!((4_000..=5_900).contains(&cases.len()));
        assert_eq!(cases, all(&[]));
    }
}
