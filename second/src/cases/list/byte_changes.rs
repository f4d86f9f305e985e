//! Small lists with one byte changed.

use crate::cases::build::{EntryPlan, creator_sid, list_of_plans, nt_sid};
use crate::random::Random;
use crate::records::Case;

const VALUES: [u8; 15] = [
    0, 1, 2, 3, 4, 5, 6, 7, 8, 0x10, 0x1F, 0x20, 0x7F, 0x80, 0xFF,
];

pub fn cases(random: &mut Random) -> Vec<Case> {
    let one = list_of_plans(2, &[EntryPlan::plain(0, 3, creator_sid(0))]);
    let two = list_of_plans(
        4,
        &[
            EntryPlan::plain(1, 0, nt_sid(&[])),
            EntryPlan::plain(0, 0x10, nt_sid(&[])),
        ],
    );
    let object = list_of_plans(4, &[EntryPlan::object(5, 0x0A, 1, nt_sid(&[]))]);
    let bare_object = list_of_plans(4, &[EntryPlan::object(6, 0x04, 0, nt_sid(&[1]))]);
    let mut cases = changes(&one, 1);
    let rest = [(two, 2), (object, 1), (bare_object, 1)];
    let sampled = rest.iter().flat_map(|(list, count)| changes(list, *count));
    cases.extend(sampled.filter(|_| random.chance(1, 7)));
    cases
}

fn changes(list: &[u8], count: usize) -> Vec<Case> {
    let mut cases = Vec::new();
    for at in 0..list.len() {
        let old = list[at];
        let near = [old.wrapping_add(1), old.wrapping_sub(1)];
        for value in VALUES.into_iter().chain(near) {
            let mut changed = list.to_vec();
            changed[at] = value;
            cases.push(Case::read(count + at % 2, changed));
        }
    }
    cases
}
