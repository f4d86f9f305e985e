//! Records of the question who may open, and of a step through a list.
//!
//! | byte | call     | then                                                       |
//! |------|----------|------------------------------------------------------------|
//! | 16   | may open | three zeros; has list, list length, held length, wanted;   |
//! |      |          | the 16 type bytes; the list; the held bytes                |
//! | 17   | step     | three zeros; list length, place; the list                  |
//!
//! Numbers have 32 bits, little-endian. A list has at most 66,000 bytes, the
//! held bytes at most 8,000. The answer is a line of the answer's eight
//! numbers, decimal, and for a step the entry's eight behind them.

use super::reader::Reader;
use super::{Case, spaced};
use crate::access::{self, Question};

pub const MAY_OPEN: u8 = 16;
pub const STEP: u8 = 17;

pub const LONGEST_LIST: usize = 66_000;
pub const LONGEST_HELD: usize = 8_000;

pub fn encode(question: &Question, out: &mut Vec<u8>) {
    let Question { list, held, .. } = question;
    let within_limits = list.len() <= LONGEST_LIST && held.len() <= LONGEST_HELD;
    assert!(within_limits, "a case is too long");
    let lengths = [list, held].map(|part| part.len() as u32);
    out.extend([MAY_OPEN, 0, 0, 0]);
    let numbers = [question.has_list, lengths[0], lengths[1], question.wanted];
    out.extend(numbers.into_iter().flat_map(u32::to_le_bytes));
    out.extend(question.object_type);
    out.extend(list);
    out.extend(held);
}

pub fn encode_step(list: &[u8], place: u32, out: &mut Vec<u8>) {
    assert!(list.len() <= LONGEST_LIST, "a case is too long");
    out.extend([STEP, 0, 0, 0]);
    out.extend((list.len() as u32).to_le_bytes());
    out.extend(place.to_le_bytes());
    out.extend(list);
}

pub fn decode(file: &[u8]) -> Result<(Case, &[u8]), &'static str> {
    let mut reader = Reader(file);
    reader.kind()?;
    let has_list = reader.number()?;
    let list_length = reader.number()?;
    let held_length = reader.number()?;
    let wanted = reader.number()?;
    let question = take_question(&mut reader, [has_list, list_length, held_length, wanted])?;
    Ok((Case::MayOpen(question), reader.0))
}

/// What is behind the numbers of a question.
pub fn take_question(reader: &mut Reader, numbers: [u32; 4]) -> Result<Question, &'static str> {
    let [has_list, list_length, held_length, wanted] = numbers;
    Ok(Question {
        has_list,
        wanted,
        object_type: reader.take()?,
        list: reader.part(list_length, LONGEST_LIST)?,
        held: reader.part(held_length, LONGEST_HELD)?,
    })
}

pub fn decode_step(file: &[u8]) -> Result<(Case, &[u8]), &'static str> {
    let mut reader = Reader(file);
    reader.kind()?;
    let length = reader.number()?;
    let place = reader.number()?;
    let list = reader.part(length, LONGEST_LIST)?;
    Ok((Case::Step { list, place }, reader.0))
}

pub fn line(question: &Question) -> String {
    spaced(access::may_open(question))
}

pub fn step_line(list: &[u8], place: u32) -> String {
    let (answer, entry) = access::step(list, place);
    spaced(answer.into_iter().chain(entry))
}

#[cfg(test)]
mod tests {
    use super::*;
    use crate::hex;
    use crate::records::{answer_lines, testing};

    fn question() -> Question {
        Question {
            has_list: 0x0102,
            list: vec![0xA0, 0xA1, 0xA2],
            object_type: [0xEE; 16],
            held: vec![0xB0],
            wanted: 0x0403_0201,
        }
    }

    fn cases() -> Vec<Case> {
        let list = vec![0xC0, 0xC1];
        vec![
            Case::MayOpen(question()),
            Case::Step {
                list,
                place: 0x0506,
            },
        ]
    }

    #[test]
    fn records_are_laid_out_as_agreed() {
        let expected = "10 000000 02010000 03000000 01000000 01020304 \
            EEEEEEEEEEEEEEEEEEEEEEEEEEEEEEEE A0A1A2 B0 \
            11 000000 02000000 06050000 C0C1  00";
        testing::laid_out(&cases(), expected);
    }

    #[test]
    fn other_heads_are_told() {
        testing::other_heads_told(&cases());
    }

    #[test]
    fn lengths_over_the_limits_are_told() {
        for (case, at, over) in [
            (&cases()[0], 8, LONGEST_LIST + 1),
            (&cases()[0], 12, LONGEST_HELD + 1),
            (&cases()[1], 4, LONGEST_LIST + 1),
        ] {
            testing::too_long_told(case, at, over);
        }
    }

    #[test]
    fn lines() {
        let list =
            hex::decode("0200 1C00 0100 0000 00 03 1400 01000000 01 01 000000000005 12000000");
        let list = list.unwrap();
        let held = list[16..].to_vec();
        let wanted = |wanted| {
            Case::MayOpen(Question {
                list: list.clone(),
                held: held.clone(),
                wanted,
                ..question()
            })
        };
        let step = |place| Case::Step {
            list: list.clone(),
            place,
        };
        let answers = answer_lines(&[
            wanted(1),
            wanted(2),
            wanted(0x8000_0000),
            Case::MayOpen(question()),
            step(0),
            step(9),
        ]);
        let expected = "0 0 0 1 0 0 0 0\n\
             0 0 0 0 0 0 0 0\n\
             14 0 0 0 0 0 0 0\n\
             1 0 0 0 0 0 0 0\n\
             0 0 0 8 1 0 0 0 0 3 20 1 0 8 12 28\n\
             0 0 0 0 0 0 0 0 0 0 0 0 0 0 0 0\n";
        assert_eq!(answers, expected);
    }
}
