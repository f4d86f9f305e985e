//! Tables of every size, and such as are not so made.

use super::make::{
    EQUAL, compared, evaluate, exists, exists_of, literal, name_of, record_of, stored, units,
};
use crate::records::{Case, LONGEST_TABLE};

pub fn cases() -> Vec<Case> {
    let mut cases = sizes();
    cases.extend(doubles());
    cases.extend(cuts());
    cases.extend(lengths());
    cases.extend(inside_others());
    cases.extend(behind_the_expression());
    cases
}

/// Another name for each number, of two to eight bytes.
fn numbered(number: usize) -> Vec<u8> {
    let mut name = units("abcd")[..2 * (1 + number % 4)].to_vec();
    name[0] = number as u8;
    name
}

fn of_numbers(numbers: impl IntoIterator<Item = usize>) -> Vec<u8> {
    let records = numbers.into_iter();
    records
        .flat_map(|number| record_of(&numbered(number), 10 * number as i64))
        .collect()
}

fn is_ten_times(number: usize) -> Vec<u8> {
    let tokens = compared(
        name_of(&numbered(number)),
        EQUAL,
        literal(10 * number as i64),
    );
    stored(tokens)
}

/// Of 32 names each is asked for, and one more; of the others some.
fn sizes() -> Vec<Case> {
    let mut cases = Vec::new();
    for size in [0, 1, 2, 31, 32, 33, 34, 40] {
        let step = match size {
            32 => 1,
            33 => 4,
            _ => size / 3 + 1,
        };
        for number in (0..=size).step_by(step) {
            cases.push(evaluate(is_ten_times(number), of_numbers(0..size)));
        }
    }
    cases
}

/// First and last, next to each other, and far from each other; the same value
/// or another; under and over 32 names.
fn doubles() -> Vec<Case> {
    let mut cases = Vec::new();
    for (size, again) in [(2, 0), (32, 0), (32, 31), (33, 0), (3, 1), (31, 15)] {
        for asked in [again, 0, size - 1, 60] {
            let table = of_numbers((0..size - 1).chain([again % (size - 1)]));
            cases.push(evaluate(is_ten_times(asked), table));
        }
    }
    for (first, second) in [(0, 1), (0, 31), (30, 31), (7, 19), (0, 16)] {
        let numbers = |at: usize| if at == second { first } else { at };
        cases.push(evaluate(is_ten_times(5), of_numbers((0..32).map(numbers))));
        let mut other_value = of_numbers((0..32).map(numbers));
        let last = other_value.len() - 1;
        other_value[last] ^= 0x80;
        cases.push(evaluate(is_ten_times(first), other_value));
    }
    cases
}

/// At every byte of the second and third record, and one byte too many.
fn cuts() -> Vec<Case> {
    let whole = of_numbers(0..3);
    let mut cases: Vec<Case> = (0..=whole.len())
        .map(|length| evaluate(is_ten_times(1), whole[..length].to_vec()))
        .collect();
    for behind in [&[0][..], &[2], &[2, 0], &[0, 0], &[1, 0, 0x61]] {
        cases.push(evaluate(is_ten_times(1), [&whole[..], behind].concat()));
    }
    cases
}

/// What a record's length says, before a name of eight bytes and a value.
fn lengths() -> Vec<Case> {
    let large = [0x0100, 0x0108, 0x8000, 0x8008, 0xFFFE, 0xFFFF];
    let mut cases = Vec::new();
    for length in (0..24).chain(large) {
        let mut record = record_of(&units("abcd"), 4);
        record[..2].copy_from_slice(&u16::to_le_bytes(length));
        for before in [0, 1] {
            let table = [of_numbers(0..before), record.clone()].concat();
            cases.push(evaluate(stored(exists("abcd")), table));
        }
    }
    // As long as these cases hold.
    let name = vec![0x61; LONGEST_TABLE - 10];
    for other in [&name[..], &name[2..]] {
        cases.push(evaluate(stored(exists_of(&name)), record_of(other, 1)));
    }
    cases
}

/// A name, or a whole record, among the bytes of another name or value is none.
fn inside_others() -> Vec<Case> {
    let within = [record_of(&units("a"), 1), units("b")].concat();
    let value = i64::from_le_bytes([2, 0, 0x61, 0, 0x61, 0, 2, 0]);
    let tables = [
        record_of(&within, 5),
        record_of(&units("b"), value),
        [record_of(&within, 5), record_of(&units("a"), 1)].concat(),
        [record_of(&units("b"), value), record_of(&units("a"), 1)].concat(),
    ];
    let mut cases = Vec::new();
    for table in tables {
        for text in ["a", "b"] {
            cases.push(evaluate(stored(exists(text)), table.clone()));
        }
    }
    cases
}

/// 15 comes before 23, and neither needs the other's part: a bad table is
/// refused where no name is asked for.
fn behind_the_expression() -> Vec<Case> {
    let bad_tables = [vec![0], vec![0, 0], of_numbers(0..33), of_numbers([1, 1])];
    let bad_expressions = [
        Vec::new(),
        stored(Vec::new()),
        stored(literal(1)),
        [stored(exists("a")), vec![0; 4]].concat(),
    ];
    let mut cases = Vec::new();
    for table in bad_tables {
        for expression in &bad_expressions {
            cases.push(evaluate(expression.clone(), table.clone()));
        }
        let no_name = compared(literal(1), EQUAL, literal(1));
        cases.push(evaluate(stored(no_name), table));
    }
    for expression in bad_expressions {
        cases.push(evaluate(expression, of_numbers(0..2)));
    }
    cases
}
