//! Random questions whose plain entries are under conditions, most of them with
//! a table that knows some of the names.

use super::super::fresh::question;
use super::asked_with;
use crate::cases::condition::damage;
use crate::cases::condition::fresh::Attributes;
use crate::random::Random;
use crate::records::Case;

const STORED: usize = 150;
const MOST_ENTRIES: usize = 4;
/// Of a condition.
const MOST_TOKENS: usize = 8;

pub fn cases(random: &mut Random) -> Vec<Case> {
    (0..STORED)
        .map(|turn| {
            let attributes = Attributes::draw(random);
            let mut question = question(random, MOST_ENTRIES);
            question.list = attributes.under_conditions(random, &question.list, MOST_TOKENS);
            let mut table = attributes.table(random);
            if turn % 8 == 0 {
                damage::table(random, &mut table);
            }
            match turn % 8 {
                1 => Case::MayOpen(question),
                _ => asked_with(question, table),
            }
        })
        .collect()
}
