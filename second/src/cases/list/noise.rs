//! Random bytes, bare and behind a good header.

use crate::cases::build::list_of;
use crate::cases::build::set_count;
use crate::random::Random;
use crate::records::Case;

const LONGEST: usize = 200;
/// Bytes that mean something in a list.
const TELLING: [u8; 14] = [0, 0, 0, 0, 1, 1, 2, 3, 4, 5, 6, 8, 0x10, 0x14];

pub fn cases(random: &mut Random) -> Vec<Case> {
    let mut cases = Vec::new();
    for length in (0..=LONGEST).step_by(4) {
        cases.push(case(random, |random| random.bytes(length)));
        cases.push(case(random, |random| telling(random, length)));
    }
    for length in (0..LONGEST).step_by(4) {
        cases.push(case(random, |random| {
            let noise = random.bytes(length);
            behind_header(random, noise)
        }));
    }
    for length in 0..100 {
        cases.push(case(random, |random| {
            let noise = telling(random, length);
            behind_header(random, noise)
        }));
    }
    cases
}

fn case(random: &mut Random, make: impl Fn(&mut Random) -> Vec<u8>) -> Case {
    let list = make(random);
    Case::read(random.below(6), list)
}

fn telling(random: &mut Random, length: usize) -> Vec<u8> {
    (0..length).map(|_| *random.pick(&TELLING)).collect()
}

fn behind_header(random: &mut Random, noise: Vec<u8>) -> Vec<u8> {
    let revision = *random.pick(&[2, 4]);
    let mut list = list_of(revision, &[noise]);
    set_count(&mut list, random.below(5));
    list
}
