//! Steps through lists with conditional entries: the SID's place and length
//! are told, whatever stands behind it.

use super::super::make::{READ, deny};
use super::super::steps::{at_each, telling_places};
use super::{ALLOW, DENY, entry};
use crate::cases::build::{EntryPlan, good_list, nt_sid, with_spare};
use crate::cases::condition::bad_lists;
use crate::cases::condition::make::{exists, some_expression, stored};
use crate::condition::Truth;
use crate::records::Case;

pub fn cases() -> Vec<Case> {
    let mut cases = Vec::new();
    for entry_type in [ALLOW, DENY] {
        for numbers in 0..=3 {
            let expression = [some_expression(), stored(exists("a"))][numbers % 2].clone();
            let plan = EntryPlan {
                expression,
                ..entry(entry_type, READ, Truth::True).naming(nt_sid(&vec![7; numbers]))
            };
            let object = EntryPlan::object(5, 0x0A, 2, nt_sid(&[]));
            let list = good_list(&[plan.clone(), deny(READ), plan, object]);
            cases.extend(at_each(&list, telling_places(&list)));
            if numbers == 1 {
                let spare = with_spare(&list, &[0xA2; 6]);
                cases.extend(at_each(&spare, telling_places(&spare)));
            }
        }
    }
    for list in bad_lists() {
        cases.extend(at_each(&list, [0, list.len()]));
    }
    cases
}
