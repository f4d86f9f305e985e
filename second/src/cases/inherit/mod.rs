//! The stored cases for the computation.

mod branches;
mod conditional;
pub(super) mod fault_orders;
mod flags;
pub mod fresh;
pub(super) mod identities;
mod large;
mod masks;
mod mending;
mod object_types;
mod placeholders;
pub(super) mod refusals;
mod rooms;
pub mod spare;
pub(super) mod ways;
pub mod worked;

use super::joined;
use crate::ace::LONGEST_LIST;
use crate::computing::{self, Request, setting};
use crate::random::Random;
use crate::records::Case;

const SEED: u64 = 2;
/// Not a container, and a container.
const KINDS: [u32; 2] = [0, setting::CONTAINER];
const BOTH_RULES: [u32; 2] = [1, 2];
/// For computations that are refused before their room counts.
const SOME_ROOM: usize = 12;

/// All cases in the order of the file; document 01's own come first.
pub fn all() -> Vec<Case> {
    let mut random = Random::new(SEED);
    let mut made = Vec::new();
    made.extend(branches::cases(&mut random));
    made.extend(flags::cases());
    made.extend(placeholders::cases());
    made.extend(masks::cases());
    made.extend(object_types::cases());
    made.extend(identities::cases(&mut random));
    made.extend(rooms::cases());
    made.extend(refusals::cases(&mut random));
    made.extend(fault_orders::cases(&mut random));
    made.extend(fresh::cases(&mut random));
    made.extend(large::cases());
    made.extend(spare::cases(&mut random));
    made.extend(mending::cases());
    made.extend(conditional::cases(&mut random));
    joined(worked::cases(), made)
}

/// How long the result is, 0 where it's absent; `None` for a refusal.
pub fn result_length(request: &Request) -> Option<usize> {
    let done = computing::try_compute(request, &mut [0; LONGEST_LIST]).ok()?;
    Some(done.answer.length as usize)
}

/// The result's bytes, none where it's absent or there is a refusal.
pub fn result(request: &Request) -> Vec<u8> {
    let mut room = vec![0; result_length(request).unwrap_or(0)];
    computing::compute(request, &mut room);
    room
}

/// In a room that holds the result and `more` bytes.
fn fitting(request: Request, more: usize) -> Case {
    let room = result_length(&request).unwrap_or(SOME_ROOM) + more;
    Case::Compute { request, room }
}

/// Each with a few bytes past its result, or none.
fn all_fitting(requests: Vec<Request>) -> Vec<Case> {
    let in_turn = requests
        .into_iter()
        .zip([0, 1, 4, 0, 9].into_iter().cycle());
    in_turn
        .map(|(request, more)| fitting(request, more))
        .collect()
}

#[cfg(test)]
mod tests {
    use super::*;
    use crate::computing::{Branch, WhichList};
    use crate::records::encode_all;
    use crate::refusal::Fault;
    use crate::tally::Tally;

    #[test]
    fn every_branch_and_every_test_is_reached_often() {
        let tally = Tally::of(&all());
        for branch in Branch::ALL {
            let label = format!("compute 0  {}", branch.name());
            assert!(tally.count(&label) >= 200, "{label}");
        }
        let of_reading = Fault::ALL.into_iter().filter(|fault| fault.is_of_list());
        for fault in of_reading {
            for which in WhichList::ALL {
                let label = format!(
                    "compute {}  {}: {}",
                    fault.number(),
                    which.name(),
                    fault.name()
                );
                assert!(tally.count(&label) >= 3, "{label}");
            }
        }
        for label in [
            "compute 6  owner",
            "compute 6  group",
            "compute 7  types",
            "compute 8  over the lent length",
            "compute 12  rule",
        ] {
            assert!(tally.count(label) >= 50, "{label}");
        }
        assert!(tally.count("compute 8  over 65,532 bytes") >= 3);
        for which in WhichList::ALL {
            let label = format!("compute 0  spare bytes: {}", which.name());
            assert!(tally.count(&label) >= 100, "{label}");
        }
    }

    #[test]
    fn the_file_stays_small_and_the_same() {
        let cases = all();
        // Three of those with spare bytes have about 65,000 bytes, and one
        // with a condition.
        assert!(encode_all(&cases).len() <= 1_700_000);
        assert!((4_000..=5_800).contains(&cases.len()));
        assert_eq!(cases, all());
    }
}
