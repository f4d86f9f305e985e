//! Lists that the computation gave where 10000000 was granted or denied: by
//! rule 2 it is all that "all" maps to, by rule 1 nothing.

use super::make::{asked_type, of_list, person, stranger};
use crate::access::Question;
use crate::ace::GENERIC;
use crate::cases::build::{EntryPlan, creator_sid, good_list};
use crate::cases::inherit::result;
use crate::cases::inherit::ways::{DOCUMENT_MAPPING, bare};
use crate::computing::{Request, setting};

const FULL_CONTROL: u32 = 0x1000_0000;
/// The second brings generic bits in.
const MAPPINGS: [[u32; 4]; 2] = [
    DOCUMENT_MAPPING,
    [0x1000_0001, 0x0000_0002, 0x0000_0004, 0xE000_00F0],
];

pub fn questions() -> Vec<Question> {
    let mut questions = Vec::new();
    for mapping in MAPPINGS {
        for rule in [2, 1] {
            for request in requests() {
                let list = result(&Request { mapping, ..request }.with_rule(rule));
                questions.extend(of_result(list, mapping[3] & !GENERIC));
            }
        }
    }
    questions
}

/// All that "all" maps to, its lowest bit, that and a bit besides; and another
/// person.
fn of_result(list: Vec<u8>, all: u32) -> Vec<Question> {
    let lowest = all & all.wrapping_neg();
    let wanted = [all, lowest, lowest | 0x0200_0000];
    let mut questions = wanted.map(|wanted| of_list(list.clone(), wanted)).to_vec();
    questions.push(of_list(list, lowest).holding(&[stranger()]));
    questions
}

fn full_control(entry_type: u8, flags: u8, sid: Vec<u8>) -> EntryPlan {
    EntryPlan {
        mask: FULL_CONTROL,
        ..EntryPlan::plain(entry_type, flags, sid)
    }
}

/// Granted from above, to the owner, in the own list before a deny from above
/// and behind a deny, by an IO entry, for an object type.
fn requests() -> Vec<Request> {
    let base = Request {
        owner: person(),
        group: stranger(),
        types: asked_type().to_vec(),
        ..bare().with(setting::CONTAINER | setting::AUTO_INHERIT)
    };
    let allow = |flags| good_list(&[full_control(0, flags, person())]);
    let deny = |flags| good_list(&[full_control(1, flags, person())]);
    let to_the_owner = good_list(&[full_control(0, 0x03, creator_sid(0))]);
    let for_a_type = good_list(&[EntryPlan {
        mask: FULL_CONTROL,
        ..EntryPlan::object(5, 0x02, 1, person())
    }]);
    vec![
        base.clone().with_parent(allow(0x0B)),
        base.clone().with_parent(to_the_owner.clone()),
        base.clone()
            .with_parent(deny(0x03))
            .with_creator(allow(0x00)),
        base.clone()
            .with_parent(allow(0x03))
            .with_creator(deny(0x00)),
        base.clone().with_creator(to_the_owner),
        base.clone().with_creator(allow(0x08)),
        base.clone().with_default(allow(0x10)),
        base.with_parent(for_a_type),
    ]
}
