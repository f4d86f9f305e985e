//! Lists with conditional entries: the expression behind the SID.

use super::ample_row;
use crate::cases::build::{
    EntryPlan, MOST_NUMBERS, creator_sid, fix_size, list_of, list_of_plans, nt_sid, random_sid,
    set_count, with_spare,
};
use crate::cases::condition::fresh::Attributes;
use crate::cases::condition::make::{
    EQUAL, compared, exists, literal, literal_written, name_of, negated, some_expression, stored,
};
use crate::cases::condition::{bad_expressions, damage};
use crate::cases::spoil::{Spoil, one_of_each, real_lengths, spoilt, thorough};
use crate::condition::code;
use crate::list::HEADER_LENGTH;
use crate::random::Random;
use crate::records::Case;

const TYPES: [u8; 2] = [9, 10];
const STORED: usize = 120;
/// Of an entry: a list has up to 65,535 bytes.
const LONGEST_ENTRY: usize = 65_524;

pub fn cases(random: &mut Random) -> Vec<Case> {
    let mut cases = good();
    cases.extend(every_sid_length(random));
    cases.extend(zeros());
    cases.extend(lengths());
    cases.extend(spoilt_entries());
    cases.extend(unacceptable());
    cases.extend(with_another_fault());
    cases.extend(in_two_entries());
    cases.extend(beside_others());
    cases.extend(random_ones(random));
    cases.push(longest());
    cases
}

fn some_plan(entry_type: u8) -> EntryPlan {
    EntryPlan::conditional(entry_type, 0x03, nt_sid(&[18]), some_expression())
}

fn with_expression(expression: Vec<u8>) -> EntryPlan {
    EntryPlan {
        expression,
        ..some_plan(9)
    }
}

fn read(entries: &[Vec<u8>], revision: u8) -> Case {
    let list = list_of(revision, entries);
    Case::read(ample_row(entries.len(), list.len()), list)
}

/// All flags, both types, either revision.
fn good() -> Vec<Case> {
    let mut cases = Vec::new();
    for flags in 0..32 {
        for entry_type in TYPES {
            let plan = EntryPlan {
                flags,
                mask: 0x0123_4567 << (flags % 4),
                ..some_plan(entry_type)
            };
            cases.push(read(&[plan.bytes()], [2, 4][usize::from(flags / 2) % 2]));
        }
    }
    cases
}

fn every_sid_length(random: &mut Random) -> Vec<Case> {
    let mut cases = Vec::new();
    for numbers in 0..=MOST_NUMBERS {
        let sid = random_sid(random, numbers);
        let plan = EntryPlan::conditional(TYPES[numbers % 2], 0, sid, stored(exists("a")));
        cases.push(read(&[plan.bytes()], 2));
    }
    cases
}

/// An entry with these bytes behind the SID, and its size.
fn with_bytes_behind(entry_type: u8, behind: &[u8]) -> Vec<u8> {
    let mut bytes = EntryPlan::plain(entry_type, 0, nt_sid(&[])).bytes();
    bytes.extend(behind);
    let size = bytes.len() as u16;
    bytes[2..4].copy_from_slice(&size.to_le_bytes());
    bytes
}

/// None to eight, behind expressions of any length, and a byte behind them.
fn zeros() -> Vec<Case> {
    let mut cases = Vec::new();
    for nots in 0..4 {
        let expression = stored(negated(exists("a"), nots));
        for zeros in 0..=8 {
            let entry_type = TYPES[zeros % 2];
            let behind = [&expression[..], &vec![0; zeros]].concat();
            cases.push(read(&[with_bytes_behind(entry_type, &behind)], 2));
            for last in [1, code::NOT] {
                let behind = [&behind[..], &[0, last]].concat();
                cases.push(read(&[with_bytes_behind(entry_type, &behind)], 4));
            }
        }
    }
    cases
}

/// Cut at every byte or longer, the size and the list's following or not.
fn lengths() -> Vec<Case> {
    let mut cases = Vec::new();
    let plans = [some_plan(9), with_expression(stored(exists("ab")))];
    for plan in plans {
        for spoil in real_lengths(&plan) {
            cases.push(read(&[spoilt(&plan, &[spoil])], 2));
        }
        for size in (0..plan.size() + 6).chain([0x0100 + plan.size(), 0xFFFF]) {
            let entry = spoilt(&plan, &[Spoil::SizeField(size)]);
            cases.push(read(&[entry, plan.bytes()], 4));
        }
    }
    cases
}

/// Each check in many ways, sizes apart; in the middle of three entries.
fn spoilt_entries() -> Vec<Case> {
    let plan = some_plan(10);
    let spoils = thorough(&plan).into_iter();
    spoils
        .filter(|spoil| !matches!(spoil, Spoil::SizeField(_)))
        .map(|spoil| {
            let entries = [plan.bytes(), spoilt(&plan, &[spoil]), plan.bytes()];
            read(&entries, 2)
        })
        .collect()
}

/// First, last and only entry.
fn unacceptable() -> Vec<Case> {
    let mut cases = Vec::new();
    for (turn, expression) in bad_expressions().into_iter().enumerate() {
        let plan = EntryPlan {
            expression,
            ..some_plan(TYPES[turn % 2])
        };
        let entries = match turn % 3 {
            0 => vec![plan.bytes()],
            1 => vec![plan.bytes(), some_plan(9).bytes()],
            _ => vec![some_plan(10).bytes(), plan.bytes()],
        };
        cases.push(read(&entries, 2));
        // Zeros that are wrong as well: 15 comes before (h).
        let behind = [&plan.expression[..], &[0; 9]].concat();
        cases.push(read(&[with_bytes_behind(plan.entry_type, &behind)], 2));
    }
    cases
}

/// Besides an expression that isn't acceptable: each other check of the entry,
/// the header's, and a row that is too short.
fn with_another_fault() -> Vec<Case> {
    let bad = with_expression(stored(literal(7)));
    let mut cases = Vec::new();
    for spoil in one_of_each(&bad) {
        let entry = spoilt(&bad, &[spoil]);
        cases.push(read(&[entry.clone(), some_plan(9).bytes()], 2));
        cases.push(read(&[some_plan(9).bytes(), entry], 2));
    }
    let list = list_of_plans(2, &[some_plan(9), bad]);
    for (at, value) in [(0, 3), (1, 1), (2, 9), (6, 1), (7, 0x80)] {
        let mut changed = list.clone();
        changed[at] = value;
        cases.push(Case::read(2, changed));
    }
    cases.extend([0, 1, 2].map(|row_length| Case::read(row_length, list.clone())));
    // Hidden by the count, it is looked at by nothing.
    let mut hidden = list.clone();
    set_count(&mut hidden, 1);
    cases.push(Case::read(1, hidden));
    cases
}

/// The first of two bad entries decides, whatever their numbers.
fn in_two_entries() -> Vec<Case> {
    let bad = with_expression(stored(exists("a").repeat(2))).bytes();
    let plan = some_plan(10);
    let mut cases = Vec::new();
    for spoil in one_of_each(&plan) {
        let other = spoilt(&plan, &[spoil]);
        cases.push(read(&[bad.clone(), other.clone()], 2));
        cases.push(read(&[other, bad.clone()], 2));
    }
    cases
}

/// Between plain and object entries, and before spare bytes.
fn beside_others() -> Vec<Case> {
    let plain = EntryPlan::plain(1, 0x02, creator_sid(0));
    let object = EntryPlan::object(5, 0x01, 3, nt_sid(&[]));
    let mut cases = Vec::new();
    for entry_type in TYPES {
        let plan = some_plan(entry_type);
        let orders = [
            [&plan, &plain, &object],
            [&plain, &plan, &object],
            [&object, &plain, &plan],
            [&plan, &object, &plan],
        ];
        for order in orders {
            let entries = order.map(EntryPlan::bytes);
            // Under revision 2 the object entry is refused.
            cases.extend([2, 4].map(|revision| read(&entries, revision)));
        }
        for spare in [&[0][..], &[0; 4], &[0xA2; 5], &plan.bytes()] {
            let list = with_spare(&list_of_plans(2, std::slice::from_ref(&plan)), spare);
            cases.push(Case::read(2, list));
        }
        // Types 05 and 06 of the same bytes, and 00 and 01.
        for other in [0, 1, 5, 6] {
            let entry = spoilt(&plan, &[Spoil::Type(other)]);
            cases.extend([2, 4].map(|revision| read(std::slice::from_ref(&entry), revision)));
        }
    }
    cases
}

fn random_ones(random: &mut Random) -> Vec<Case> {
    (0..STORED)
        .map(|turn| {
            let attributes = Attributes::draw(random);
            let plans: Vec<EntryPlan> = (0..1 + random.below(3))
                .map(|_| {
                    let mut expression = attributes.unpadded(random);
                    if turn % 3 == 0 && random.chance(1, 2) {
                        damage::expression(random, &mut expression);
                    }
                    EntryPlan::random(random, true).under(expression)
                })
                .collect();
            let entries: Vec<Vec<u8>> = plans.iter().map(EntryPlan::bytes).collect();
            read(&entries, *random.pick(&[2, 4]))
        })
        .collect()
}

/// One entry that leaves three bytes of the longest list, which are spare.
fn longest() -> Case {
    let compared_name = |length: usize| {
        let name = vec![0x61; length];
        compared(name_of(&name), EQUAL, literal_written(-1, 2, 1))
    };
    let rest = EntryPlan::plain(9, 0, nt_sid(&[])).size() + stored(compared_name(0)).len();
    // Even, and a zero behind.
    let expression = stored(compared_name(LONGEST_ENTRY - rest - 1));
    let plan = EntryPlan::conditional(9, 0, nt_sid(&[]), expression);
    assert_eq!(plan.size(), LONGEST_ENTRY);
    let mut list = list_of_plans(2, &[plan]);
    list.resize(HEADER_LENGTH + LONGEST_ENTRY + 3, 0xFF);
    fix_size(&mut list);
    Case::read(1, list)
}

#[cfg(test)]
mod tests {
    use super::*;
    use crate::reading;

    /// Whatever the name is, it isn't looked at in reading.
    #[test]
    fn the_longest_is_read() {
        let Case::Read { list, .. } = longest() else {
            panic!("a list is read");
        };
        let answer = reading::read(&list, &mut [0]);
        assert_eq!(answer.eight(), [0, 0, 0, 65_535, 1, 1, 0, 65_532]);
    }
}
