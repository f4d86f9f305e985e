//! An expression is evaluated, and asked about in the entries of a list.

use std::hint::black_box;

use super::access::account;
use super::{Repeated, Side};
use crate::capi::lending::Lending;
use crate::capi::{self, WhenEmpty};
use second::access::{self, Question};
use second::cases::build::{EntryPlan, good_list, nt_sid};
use second::cases::condition::make::{
    AT_LEAST, EQUAL, both, compared, literal, name, not, stored, table,
};
use second::condition::{self, MOST_NAMES};

const READ: u32 = 0x0002_0000;
/// Comparisons joined one by one, and a not behind them.
const COMPARED: usize = 16;

fn name_of(number: usize) -> String {
    format!("name{number:02}")
}

/// As many as there may be, of 12 bytes each; each is its number.
fn all_names() -> Vec<u8> {
    let names: Vec<String> = (0..MOST_NAMES).map(name_of).collect();
    let values: Vec<(&str, i64)> = names.iter().map(String::as_str).zip(0..).collect();
    table(&values)
}

/// Of 64 tokens: each of the table's last names is its number, and not so.
fn of_64_tokens() -> Vec<u8> {
    let is_its_number = |number: usize| {
        let number_token = literal(number as i64);
        compared(name(&name_of(number)), EQUAL, number_token)
    };
    let mut last = MOST_NAMES - COMPARED..MOST_NAMES;
    let first = last.next().map(is_its_number).unwrap_or_default();
    let joined = last.fold(first, |all, number| both(all, is_its_number(number)));
    stored(not(joined))
}

/// One entry for S-1-5-18 with that condition.
pub fn list_of_64_tokens() -> Vec<u8> {
    good_list(&[EntryPlan::conditional(9, 0, nt_sid(&[18]), of_64_tokens())])
}

pub struct Evaluating {
    side: Side,
    expression: Vec<u8>,
    table: Vec<u8>,
    answer: [u32; 8],
}

impl Evaluating {
    pub fn of_64_tokens(side: Side) -> Evaluating {
        Evaluating {
            side,
            expression: of_64_tokens(),
            table: all_names(),
            answer: [0; 8],
        }
    }
}

impl Repeated for Evaluating {
    fn call(&mut self) {
        let (expression, table) = black_box((&self.expression, &self.table));
        match self.side {
            Side::Library => {
                let lending = Lending::apart(WhenEmpty::Null);
                capi::condition::evaluate(expression, table, &mut self.answer, &lending);
            }
            Side::Second => self.answer = condition::evaluate(expression, table),
        }
        black_box(self);
    }

    fn outcome(&self) -> ([u32; 8], String) {
        (self.answer, String::new())
    }
}

pub struct Opening {
    side: Side,
    question: Question,
    table: Vec<u8>,
    answer: [u32; 8],
}

impl Opening {
    /// Each entry allows one of the held accounts to read, where the table's
    /// last name is at least a number; only the last entry's is small enough.
    pub fn of_entries(side: Side, entries: usize, held: usize) -> Opening {
        let last_name = MOST_NAMES - 1;
        let plans = (1..=entries).map(|number| {
            let least = (last_name + entries - number) as i64;
            let condition = compared(name(&name_of(last_name)), AT_LEAST, literal(least));
            EntryPlan {
                mask: READ,
                ..EntryPlan::conditional(9, 0, account((number % held) as u32), stored(condition))
            }
        });
        let question = Question {
            has_list: 1,
            list: good_list(&plans.collect::<Vec<_>>()),
            object_type: [0; 16],
            held: (0..held as u32).flat_map(account).collect(),
            wanted: READ,
        };
        let table = all_names();
        assert_eq!(
            access::may_open_with(&question, &table)[3],
            1,
            "the last entry allows"
        );
        Opening {
            side,
            question,
            table,
            answer: [0; 8],
        }
    }
}

impl Repeated for Opening {
    fn call(&mut self) {
        let (question, table) = black_box((&self.question, &self.table));
        match self.side {
            Side::Library => {
                let lending = Lending::apart(WhenEmpty::Null);
                capi::access::may_open_with(question, table, &mut self.answer, &lending);
            }
            Side::Second => self.answer = access::may_open_with(question, table),
        }
        black_box(self);
    }

    fn outcome(&self) -> ([u32; 8], String) {
        (self.answer, String::new())
    }
}

#[cfg(test)]
mod tests {
    use super::*;
    use second::condition::{SIGNATURE, Token};

    #[test]
    fn it_has_64_tokens() {
        let expression = of_64_tokens();
        let mut rest = expression.strip_prefix(&SIGNATURE).unwrap();
        let mut tokens = 0;
        while let Ok((_, behind)) = Token::cut_off(rest) {
            tokens += 1;
            rest = behind;
        }
        assert_eq!((tokens, rest.len()), (64, 0));
        assert_eq!(condition::evaluate(&expression, &all_names())[3], 0);
    }
}
