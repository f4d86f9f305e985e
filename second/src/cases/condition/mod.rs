//! The stored expressions and tables.

pub mod damage;
pub mod fresh;
mod limits;
pub mod make;
mod operands;
mod tables;
mod tokens;
mod truths;
mod zeros;

use super::build::{EntryPlan, creator_sid, good_list, nt_sid};
use super::joined;
use crate::condition::code;
use crate::random::Random;
use crate::records::Case;
use make::{EQUAL, compared, exists, literal, literal_written, name, negated, stored};

const SEED: u64 = 6;

/// All cases in the order of the file.
pub fn all() -> Vec<Case> {
    let mut random = Random::new(SEED);
    let mut made = truths::cases();
    made.extend(tokens::cases());
    made.extend(operands::cases());
    made.extend(limits::cases());
    made.extend(zeros::cases());
    made.extend(tables::cases());
    made.extend(fresh::cases(&mut random));
    joined(Vec::new(), made)
}

/// One or two for each test of an expression, without zeros.
pub fn bad_expressions() -> Vec<Vec<u8>> {
    let tokens = [
        Vec::new(),
        vec![0xFF],
        literal(1)[..10].to_vec(),
        name("ab")[..8].to_vec(),
        compared(name("a"), EQUAL, literal_written(1, 0, 2)),
        compared(name("a"), EQUAL, literal_written(1, 3, 4)),
        [code::NAME, 0, 0, 0, 0, code::EXISTS].to_vec(),
        [code::NAME, 3, 0, 0, 0, 0x61, 0, 0x62, code::EXISTS].to_vec(),
        [exists("a"), vec![0, code::NOT]].concat(),
        negated(exists("a"), 63),
        vec![code::NOT],
        [exists("a"), vec![code::AND]].concat(),
        compared(exists("a"), EQUAL, literal(1)),
        [literal(1), vec![code::EXISTS]].concat(),
        [name("a"), vec![code::NOT]].concat(),
        name("a"),
        exists("a").repeat(2),
        [exists("a").repeat(17), vec![code::OR; 16]].concat(),
    ];
    let mut expressions = tokens.map(stored).to_vec();
    expressions.extend([Vec::new(), b"arty".to_vec(), exists("a")]);
    expressions
}

/// An entry that would come down, and behind it one with each of these.
pub fn bad_lists() -> Vec<Vec<u8>> {
    let good = EntryPlan::plain(0, 0x03, creator_sid(0));
    let bad = |(turn, expression): (usize, Vec<u8>)| {
        let entry_type = 9 + turn as u8 % 2;
        let bad = EntryPlan::conditional(entry_type, 0x03, nt_sid(&[18]), expression);
        good_list(&[good.clone(), bad])
    };
    bad_expressions().into_iter().enumerate().map(bad).collect()
}

#[cfg(test)]
mod tests {
    use super::*;
    use crate::condition::{BadTable, Truth, Unacceptable};
    use crate::records::encode_all;
    use crate::tally::Tally;

    #[test]
    fn every_truth_and_every_test_is_met_often() {
        let tally = Tally::of(&all());
        let often = |label: String, least: usize| {
            let count = tally.count(&label);
            assert!(count >= least, "{label}: {count}");
        };
        for truth in Truth::ALL {
            often(format!("evaluate 0  {}", truth.name()), 300);
        }
        for unacceptable in Unacceptable::ALL {
            often(format!("evaluate 15  {}", unacceptable.name()), 20);
        }
        for bad in BadTable::ALL {
            often(format!("evaluate 23  {}", bad.name()), 20);
        }
    }

    #[test]
    fn the_file_stays_small_and_the_same() {
        let cases = all();
        assert!((2_500..=4_500).contains(&cases.len()), "{}", cases.len());
        // One of them has 66,000 bytes.
        let file = encode_all(&cases);
        assert!(file.len() <= 450_000, "{}", file.len());
        assert_eq!(file, encode_all(&all()));
    }
}
