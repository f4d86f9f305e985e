//! Identities, good and refused.

use crate::cases::build::{MOST_NUMBERS, creator_sid, nt_sid, random_sid, sid};
use crate::random::Random;
use crate::records::Case;

pub fn cases(random: &mut Random) -> Vec<Case> {
    let mut all = Vec::new();
    all.extend(good(random));
    all.extend(placeholders());
    all.extend(near_placeholders());
    all.extend(wrong_first_bytes(random));
    all.extend(too_many_numbers(random));
    all.extend(wrong_lengths(random));
    all.extend(random_bytes(random));
    all.into_iter().map(Case::Identity).collect()
}

fn good(random: &mut Random) -> Vec<Vec<u8>> {
    let lengths = (0..=MOST_NUMBERS).flat_map(|numbers| [numbers; 5]);
    lengths.map(|numbers| random_sid(random, numbers)).collect()
}

fn placeholders() -> [Vec<u8>; 2] {
    [creator_sid(0), creator_sid(1)]
}

pub fn near_placeholders() -> Vec<Vec<u8>> {
    let creator = [0, 0, 0, 0, 0, 3];
    let mut all = vec![
        sid(creator, &[]),
        sid(creator, &[2]),
        sid(creator, &[3]),
        sid(creator, &[4]),
        sid(creator, &[0, 0]),
        sid(creator, &[1, 0]),
        sid(creator, &[0, 1]),
        sid(creator, &[1, 1]),
        sid(creator, &[0; 15]),
        sid([3, 0, 0, 0, 0, 0], &[0]),
        sid([3, 0, 0, 0, 0, 0], &[1]),
        sid(creator, &[0x0100_0000]),
        sid([0; 6], &[0]),
        sid([0; 6], &[3]),
    ];
    for placeholder in placeholders() {
        for at in 0..placeholder.len() {
            let old = placeholder[at];
            let values = [
                old.wrapping_add(1),
                old.wrapping_sub(1),
                old ^ 0x80,
                old ^ 2,
                !old,
            ];
            for value in values {
                let mut changed = placeholder.clone();
                changed[at] = value;
                all.push(changed);
            }
        }
        all.extend((0..placeholder.len()).map(|length| placeholder[..length].to_vec()));
        for tail in [1, 2, 4, 12, 56, 57] {
            all.push([&placeholder[..], &vec![0; tail]].concat());
        }
        all.push(placeholder.repeat(2));
    }
    all
}

pub fn wrong_first_bytes(random: &mut Random) -> Vec<Vec<u8>> {
    let mut all = Vec::new();
    for numbers in [0, 1, 5, 15] {
        for first in [0, 2, 3, 4, 0x10, 0x7F, 0x81, 0xFF] {
            let mut bytes = random_sid(random, numbers);
            bytes[0] = first;
            all.push(bytes);
        }
    }
    all
}

/// n above 15, with the bytes it asks for and with fewer.
pub fn too_many_numbers(random: &mut Random) -> Vec<Vec<u8>> {
    let mut all = Vec::new();
    for n in [16, 17, 18, 31, 32, 64, 127, 128, 241, 255] {
        let asked = 8 + 4 * usize::from(n);
        for length in [asked, 68, 8, 12, 8 + 4 * usize::from(n % 16)] {
            let mut bytes = random.bytes(length);
            bytes[..2].copy_from_slice(&[1, n]);
            all.push(bytes);
        }
    }
    all
}

pub fn wrong_lengths(random: &mut Random) -> Vec<Vec<u8>> {
    let mut all = vec![Vec::new()];
    for numbers in 0..=MOST_NUMBERS {
        let good = random_sid(random, numbers);
        for less in [1, 2, 4] {
            all.push(good[..good.len() - less].to_vec());
        }
        for more in [1, 2, 3, 4, 8] {
            all.push([&good[..], &random.bytes(more)].concat());
        }
    }
    let longest = nt_sid(&[9; MOST_NUMBERS]);
    for length in [69, 70, 72, 76, 100, 136, 256, 300, 1_024, 2_000] {
        let mut bytes = longest.clone();
        bytes.resize(length, 0);
        all.push(bytes);
    }
    all
}

fn random_bytes(random: &mut Random) -> Vec<Vec<u8>> {
    let mut all = Vec::new();
    for length in (0..80).step_by(2) {
        all.push(random.bytes(length));
        let mut with_head = vec![1, random.below(18) as u8];
        with_head.extend(random.bytes(length));
        all.push(with_head);
    }
    all
}
