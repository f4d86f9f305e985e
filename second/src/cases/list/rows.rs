//! Rows of every length, on good lists and on refused ones.

use crate::cases::build::{random_list, set_count};
use crate::random::Random;
use crate::records::Case;

const MOST_ENTRIES: usize = 12;

pub fn cases(random: &mut Random) -> Vec<Case> {
    let mut cases = short_rows(random);
    for count in 0..=MOST_ENTRIES {
        for revision in [2, 4] {
            let good = random_list(random, revision, count);
            let short = count.saturating_sub(1);
            let rows = [0, count / 2, short, count, count + 1, count + 40];
            cases.extend(rows.map(|row| Case::read(row, good.clone())));
            for bad in refused(&good) {
                cases.extend([0, count].map(|row| Case::read(row, bad.clone())));
            }
        }
    }
    cases
}

/// Rows shorter than the count by one or more.
fn short_rows(random: &mut Random) -> Vec<Case> {
    let mut case = |place: usize| {
        let revision = *random.pick(&[2, 4]);
        let count = 1 + place % 6;
        let list = random_list(random, revision, count);
        Case::read(random.below(count), list)
    };
    (0..72).map(&mut case).collect()
}

/// A bad header and a bad count.
fn refused(good: &[u8]) -> [Vec<u8>; 2] {
    let mut header = good.to_vec();
    header[7] = 1;
    let mut count = good.to_vec();
    set_count(&mut count, 0xFF);
    [header, count]
}
