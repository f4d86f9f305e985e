//! Fresh random expressions and tables: good ones of all sizes, some a little
//! over the limits, and damaged ones.

use second::cases::condition::damage;
use second::cases::condition::fresh::Attributes;
use second::cases::condition::make::{exists_of, padded, record_of, stored};
use second::condition::{MOST_DEPTH, MOST_NAMES, MOST_TOKENS, SIGNATURE, Table};
use second::random::Random;

/// Of a name that is long.
const LONGEST_NAME: usize = 65_534;

pub struct Subject {
    pub expression: Vec<u8>,
    pub table: Vec<u8>,
    /// Parts that are the same bytes are to be one range.
    pub together: bool,
}

pub fn subject(random: &mut Random) -> Subject {
    let attributes = Attributes::draw(random);
    let mut subject = Subject {
        expression: expression(random, &attributes),
        table: attributes.table(random),
        together: random.chance(1, 8),
    };
    match random.below(400) {
        0 => subject = with_a_long_name(random),
        1..20 => fill(random, &mut subject.table),
        _ => {}
    }
    if subject.together {
        share(random, &mut subject);
    }
    match random.below(8) {
        0..3 => spoil_expression(random, &mut subject.expression),
        3 => spoil_table(random, &mut subject.table),
        4 if random.chance(1, 3) => {
            spoil_expression(random, &mut subject.expression);
            spoil_table(random, &mut subject.table);
        }
        _ => {}
    }
    subject
}

/// One in eight about the limits, one past them or both.
fn expression(random: &mut Random, attributes: &Attributes) -> Vec<u8> {
    if random.chance(7, 8) {
        return attributes.expression(random);
    }
    let tokens = MOST_TOKENS - 3 + random.below(6);
    let depth = MOST_DEPTH - 2 + random.below(5);
    let expression = attributes.of_size(random, tokens, depth);
    match random.below(2) {
        0 => padded(expression),
        _ => expression,
    }
}

/// That the table has, or nearly has.
fn with_a_long_name(random: &mut Random) -> Subject {
    let length = match random.below(3) {
        0 => LONGEST_NAME,
        _ => 2 + 2 * random.below(LONGEST_NAME / 2),
    };
    let name = vec![random.byte(); length];
    let mut other = name.clone();
    if random.chance(1, 2) {
        other[length - 1] ^= 1;
    }
    let record_length = (length as u16).to_le_bytes();
    Subject {
        expression: stored(exists_of(&name)),
        table: [&record_length[..], &other, &[1; 8]].concat(),
        together: false,
    }
}

/// With names that no expression has, before the others or behind them: 32 in
/// all, or about as many.
fn fill(random: &mut Random, table: &mut Vec<u8>) {
    let standing = Table::parse(table).expect("it is well made").names();
    let wanted = match random.below(4) {
        0 => MOST_NAMES + 1,
        1 => MOST_NAMES - 1,
        _ => MOST_NAMES,
    };
    let numbers = 0..(wanted - standing.min(wanted)) as u8;
    let others: Vec<u8> = numbers
        .flat_map(|number| record_of(&[number, 0xD8], random.below(9) as i64))
        .collect();
    let at = *random.pick(&[0, table.len()]);
    table.splice(at..at, others);
}

/// The table is a name of the expression, or the expression one of the table.
fn share(random: &mut Random, subject: &mut Subject) {
    let Subject {
        expression, table, ..
    } = subject;
    if random.chance(1, 2) && !table.is_empty() && table.len().is_multiple_of(2) {
        *expression = stored(exists_of(table));
    } else if expression.len().is_multiple_of(2) {
        let length = (expression.len() as u16).to_le_bytes();
        let record = [&length[..], expression, &[2; 8]].concat();
        *table = record;
    }
}

fn spoil_expression(random: &mut Random, expression: &mut Vec<u8>) {
    if random.chance(1, 20) {
        let length = random.below(40);
        *expression = random.bytes(length);
        if random.chance(1, 2) {
            expression.splice(0..0, SIGNATURE);
        }
        return;
    }
    for _ in 0..1 + random.below(2) {
        damage::expression(random, expression);
    }
}

fn spoil_table(random: &mut Random, table: &mut Vec<u8>) {
    if random.chance(1, 20) {
        let length = random.below(60);
        *table = random.bytes(length);
        return;
    }
    for _ in 0..1 + random.below(2) {
        damage::table(random, table);
    }
}
