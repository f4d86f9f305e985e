//! Held bytes that aren't SIDs to their end.

use super::make::{READ, allow, deny, of_entries, person};
use crate::access::{MOST_HELD, Question};
use crate::cases::build::nt_sid;
use crate::cases::list::identities::{too_many_numbers, wrong_first_bytes, wrong_lengths};
use crate::random::Random;

/// Longer ones are left out, so that the file stays small.
const LONGEST: usize = 300;

pub fn questions(random: &mut Random) -> Vec<Question> {
    let mut held = cuts();
    held.extend(behind_many());
    held.extend(bad_sids(random));
    held.extend(spoilt_held());
    let plans = [
        vec![allow(READ)],
        vec![deny(READ)],
        vec![allow(READ), deny(READ)],
    ];
    let in_turn = held.into_iter().zip(plans.iter().cycle());
    in_turn
        .map(|(held, plans)| of_entries(plans, READ).with_held(held))
        .collect()
}

/// One of each kind.
pub fn spoilt_held() -> Vec<Vec<u8>> {
    let good = person();
    let changed = |at: usize, value: u8| {
        let mut bytes = good.clone();
        bytes[at] = value;
        bytes
    };
    vec![
        vec![0],
        vec![1],
        good[..11].to_vec(),
        [&good[..], &[1]].concat(),
        [&good[..], &[0; 8]].concat(),
        changed(0, 2),
        changed(1, 0),
        changed(1, 2),
        changed(1, 16),
    ]
}

/// Three SIDs cut at every length; where one ends it is none of these.
fn cuts() -> Vec<Vec<u8>> {
    let three = [nt_sid(&[]), person(), nt_sid(&[32, 544])].concat();
    let lengths = (1..three.len()).filter(|length| ![8, 20].contains(length));
    lengths.map(|length| three[..length].to_vec()).collect()
}

/// Junk behind as many as are allowed, one less and one more: 6 before 7.
fn behind_many() -> Vec<Vec<u8>> {
    let mut all = Vec::new();
    for count in [1, 2, MOST_HELD - 1, MOST_HELD, MOST_HELD + 1, MOST_HELD + 2] {
        let good = nt_sid(&[]).repeat(count);
        for junk in [
            vec![0],
            vec![1],
            vec![0xFF; 8],
            vec![1, 16, 0, 0, 0, 0, 0, 5],
            vec![2, 0, 0, 0, 0, 0, 0, 5],
            nt_sid(&[18])[..11].to_vec(),
        ] {
            all.push([&good[..], &junk].concat());
        }
        // A bad one first.
        all.push([&[1, 16, 0, 0, 0, 0, 0, 5], &good[..]].concat());
    }
    all
}

/// By themselves and behind a good one.
fn bad_sids(random: &mut Random) -> Vec<Vec<u8>> {
    let mut bad = too_many_numbers(random);
    bad.extend(wrong_first_bytes(random));
    bad.extend(wrong_lengths(random));
    bad.retain(|bytes| (1..=LONGEST).contains(&bytes.len()));
    let in_turn = bad.into_iter().enumerate();
    in_turn
        .map(|(turn, bytes)| match turn % 3 {
            0 => [person(), bytes].concat(),
            _ => bytes,
        })
        .collect()
}
