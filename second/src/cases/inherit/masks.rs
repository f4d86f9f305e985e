//! Generic bits in all 16 combinations, by several mappings.

use super::ways::{DOCUMENT_MAPPING, Way};
use super::{KINDS, all_fitting};
use crate::cases::build::{EntryPlan, good_list, nt_sid};
use crate::computing::Request;
use crate::records::Case;

const MAPPINGS: [[u32; 4]; 11] = [
    DOCUMENT_MAPPING,
    [0, 0, 0, 0],
    [u32::MAX, u32::MAX, u32::MAX, u32::MAX],
    [1, 2, 4, 8],
    [0, 0, 0, u32::MAX],
    // Mappings that bring generic bits in: they join nothing more.
    [0x4000_0001, 0x0000_0002, 0x0000_0004, 0x0000_0008],
    [0x0000_0001, 0x8000_0002, 0x0000_0004, 0x0000_0008],
    [0x2000_0001, 0x2000_0002, 0x0000_0004, 0x0000_0008],
    [0x0000_0001, 0x0000_0002, 0xC000_0004, 0x0000_0008],
    [0x1000_0001, 0x1000_0002, 0x1000_0004, 0xE000_0008],
    [0xF000_0010, 0xF000_0020, 0xF000_0040, 0xF000_0080],
];

/// Beside the generic bits.
const OTHER_BITS: [u32; 4] = [0, 0x0800_0000, 0x0FFF_FFFF, 0x0000_0100];

pub fn cases() -> Vec<Case> {
    let mut requests = one_by_one(0);
    requests.extend(all_bits_at_once(0));
    requests.extend(in_one_list());
    all_fitting(requests)
}

fn with_mask(mask: u32) -> EntryPlan {
    EntryPlan {
        mask,
        ..EntryPlan::plain(0, 0x03, nt_sid(&[]))
    }
}

/// The rules in turn, beginning with that of `first_turn`.
pub fn one_by_one(first_turn: usize) -> Vec<Request> {
    let mut requests = Vec::new();
    for (turn, mapping) in MAPPINGS.into_iter().enumerate() {
        for generic in 0..16 {
            let place = generic as usize + turn;
            let mask = generic << 28 | OTHER_BITS[place % OTHER_BITS.len()];
            let way = [Way::ParentAlone, Way::OwnAlone, Way::DefaultList][place % 3];
            let request = way.request(good_list(&[with_mask(mask)]), turn + first_turn);
            requests.push(Request { mapping, ..request });
        }
    }
    requests
}

/// Each single bit of the mask, in one list.
pub fn all_bits_at_once(turn: usize) -> Vec<Request> {
    let plans: Vec<EntryPlan> = (0..32).map(|bit| with_mask(1 << bit)).collect();
    [DOCUMENT_MAPPING, [1, 2, 4, 8], MAPPINGS[10]]
        .map(|mapping| Request {
            mapping,
            ..Way::ParentAlone.request(good_list(&plans), turn)
        })
        .to_vec()
}

/// All 16 combinations in one list, by every way.
fn in_one_list() -> Vec<Request> {
    let plans: Vec<EntryPlan> = (0..16).map(|generic| with_mask(generic << 28)).collect();
    let mut requests = Vec::new();
    for (turn, way) in Way::ALL.into_iter().enumerate() {
        for mapping in [DOCUMENT_MAPPING, MAPPINGS[5 + turn % 5]] {
            let request = way.request(good_list(&plans), turn).with(KINDS[turn % 2]);
            requests.push(Request { mapping, ..request });
        }
    }
    requests
}
