//! Conditional entries: questions with a table and without one, refusals up to
//! 23, and steps through such lists.

mod fresh;
mod refusals;
mod steps;
mod truths;

use super::make::person;
use crate::access::Question;
use crate::cases::build::EntryPlan;
use crate::cases::condition::make::{EQUAL, compared, literal, name, stored, table};
use crate::condition::Truth;
use crate::random::Random;
use crate::records::Case;

pub fn cases(random: &mut Random) -> Vec<Case> {
    let mut cases = truths::cases();
    cases.extend(refusals::cases());
    cases.extend(steps::cases());
    cases.extend(fresh::cases(random));
    cases
}

const ALLOW: u8 = 9;
const DENY: u8 = 10;

fn asked_with(question: Question, table: Vec<u8>) -> Case {
    Case::MayOpenWith { question, table }
}

/// The table of most questions.
fn a_is_1() -> Vec<u8> {
    table(&[("a", 1)])
}

/// A condition that comes to this by that table.
fn by_table(truth: Truth) -> Vec<u8> {
    let (text, number) = match truth {
        Truth::False => ("a", 2),
        Truth::True => ("a", 1),
        Truth::Unknown => ("b", 1),
    };
    stored(compared(name(text), EQUAL, literal(number)))
}

/// For the person, without flags.
fn entry(entry_type: u8, mask: u32, truth: Truth) -> EntryPlan {
    EntryPlan {
        mask,
        ..EntryPlan::conditional(entry_type, 0, person(), by_table(truth))
    }
}
