//! Records of an expression's evaluation, and of the question who may open
//! with a table.
//!
//! | byte | call          | then                                                  |
//! |------|---------------|-------------------------------------------------------|
//! | 18   | evaluate      | three zeros; expression length, table length; the     |
//! |      |               | expression; the table                                 |
//! | 19   | may open with | three zeros; has list, list length, held length,      |
//! |      |               | table length, wanted; the 16 type bytes; the list;    |
//! |      |               | the held bytes; the table                             |
//!
//! Numbers have 32 bits, little-endian. An expression has at most 66,000 bytes
//! and a table at most 8,000; the others as without a table. The answer is a
//! line of the answer's eight numbers, decimal.

use super::opening::{LONGEST_HELD, LONGEST_LIST, take_question};
use super::reader::Reader;
use super::{Case, spaced};
use crate::access::{self, Question};
use crate::condition;

pub const EVALUATE: u8 = 18;
pub const MAY_OPEN_WITH: u8 = 19;

pub const LONGEST_EXPRESSION: usize = 66_000;
pub const LONGEST_TABLE: usize = 8_000;

pub fn encode_evaluate(expression: &[u8], table: &[u8], out: &mut Vec<u8>) {
    let within_limits = expression.len() <= LONGEST_EXPRESSION && table.len() <= LONGEST_TABLE;
    assert!(within_limits, "a case is too long");
    out.extend([EVALUATE, 0, 0, 0]);
    out.extend((expression.len() as u32).to_le_bytes());
    out.extend((table.len() as u32).to_le_bytes());
    out.extend(expression);
    out.extend(table);
}

pub fn encode(question: &Question, table: &[u8], out: &mut Vec<u8>) {
    let parts = [&question.list[..], &question.held, table];
    let limits = [LONGEST_LIST, LONGEST_HELD, LONGEST_TABLE];
    let within_limits = parts
        .iter()
        .zip(limits)
        .all(|(part, most)| part.len() <= most);
    assert!(within_limits, "a case is too long");
    out.extend([MAY_OPEN_WITH, 0, 0, 0]);
    let [list, held, table] = parts.map(|part| part.len() as u32);
    let numbers = [question.has_list, list, held, table, question.wanted];
    out.extend(numbers.into_iter().flat_map(u32::to_le_bytes));
    out.extend(question.object_type);
    out.extend(parts.concat());
}

pub fn decode_evaluate(file: &[u8]) -> Result<(Case, &[u8]), &'static str> {
    let mut reader = Reader(file);
    reader.kind()?;
    let expression_length = reader.number()?;
    let table_length = reader.number()?;
    let case = Case::Evaluate {
        expression: reader.part(expression_length, LONGEST_EXPRESSION)?,
        table: reader.part(table_length, LONGEST_TABLE)?,
    };
    Ok((case, reader.0))
}

pub fn decode(file: &[u8]) -> Result<(Case, &[u8]), &'static str> {
    let mut reader = Reader(file);
    reader.kind()?;
    let has_list = reader.number()?;
    let list_length = reader.number()?;
    let held_length = reader.number()?;
    let table_length = reader.number()?;
    let wanted = reader.number()?;
    let question = take_question(&mut reader, [has_list, list_length, held_length, wanted])?;
    let table = reader.part(table_length, LONGEST_TABLE)?;
    Ok((Case::MayOpenWith { question, table }, reader.0))
}

pub fn evaluate_line(expression: &[u8], table: &[u8]) -> String {
    spaced(condition::evaluate(expression, table))
}

pub fn line(question: &Question, table: &[u8]) -> String {
    spaced(access::may_open_with(question, table))
}

#[cfg(test)]
mod tests {
    use super::*;
    use crate::hex;
    use crate::records::{answer_lines, testing};

    fn cases() -> Vec<Case> {
        vec![
            Case::Evaluate {
                expression: vec![0xC0, 0xC1],
                table: vec![0xD0],
            },
            Case::MayOpenWith {
                question: Question {
                    has_list: 0x0102,
                    list: vec![0xA0, 0xA1, 0xA2],
                    object_type: [0xEE; 16],
                    held: vec![0xB0],
                    wanted: 0x0403_0201,
                },
                table: vec![0xD0, 0xD1],
            },
        ]
    }

    #[test]
    fn records_are_laid_out_as_agreed() {
        let expected = "12 000000 02000000 01000000 C0C1 D0 \
            13 000000 02010000 03000000 01000000 02000000 01020304 \
            EEEEEEEEEEEEEEEEEEEEEEEEEEEEEEEE A0A1A2 B0 D0D1  00";
        testing::laid_out(&cases(), expected);
    }

    #[test]
    fn other_heads_are_told() {
        testing::other_heads_told(&cases());
    }

    #[test]
    fn lengths_over_the_limits_are_told() {
        for (case, at, over) in [
            (&cases()[0], 4, LONGEST_EXPRESSION + 1),
            (&cases()[0], 8, LONGEST_TABLE + 1),
            (&cases()[1], 8, LONGEST_LIST + 1),
            (&cases()[1], 12, LONGEST_HELD + 1),
            (&cases()[1], 16, LONGEST_TABLE + 1),
        ] {
            testing::too_long_told(case, at, over);
        }
    }

    /// "a" is 1, or there is no "a": by itself and in an entry for S-1-5-18.
    #[test]
    fn lines() {
        let bytes = |text: &str| hex::decode(text).unwrap();
        let expression = "61727478 F8 02000000 6100 04 0100000000000000 03 02 80 00";
        let tables = ["0200 6100 0100000000000000", "", "00"].map(bytes);
        let held = bytes("01 01 000000000005 12000000");
        let list = bytes(&format!(
            "0200 3400 0100 0000 09 00 2C00 01000000 01 01 000000000005 12000000 {expression}"
        ));
        let cases = tables.iter().flat_map(|table| {
            let question = Question {
                has_list: 1,
                list: list.clone(),
                object_type: [0; 16],
                held: held.clone(),
                wanted: 1,
            };
            [
                Case::Evaluate {
                    expression: bytes(expression),
                    table: table.clone(),
                },
                Case::MayOpenWith {
                    question,
                    table: table.clone(),
                },
            ]
        });
        let expected = "0 0 0 1 0 0 0 0\n0 0 0 1 0 0 0 0\n\
             0 0 0 2 0 0 0 0\n0 0 0 0 0 0 0 0\n\
             23 0 0 0 0 0 0 0\n23 0 0 0 0 0 0 0\n";
        assert_eq!(answer_lines(&cases.collect::<Vec<_>>()), expected);
    }
}
