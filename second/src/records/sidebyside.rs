//! Records of two lists that are compared: the byte 21, the first list's
//! length and the second's in 32 bits, the row's length in 16, all
//! little-endian, then the first list and the second.
//!
//! A list has at most 66,000 bytes, the row at most 300 elements; before the
//! call its element i holds 4294967295 - i. The answer is a line: 21, the
//! answer's eight numbers and every element of the row, decimal.

use super::opening::LONGEST_LIST;
use super::reader::Reader;
use super::{Case, spaced};
use crate::sidebyside::{self, Lists};

pub const KIND: u8 = 21;
/// In elements.
pub const LONGEST_ROW: u16 = 300;

pub fn encode((first, second): &Lists, row_length: u16, out: &mut Vec<u8>) {
    let within_limits = first.len().max(second.len()) <= LONGEST_LIST && row_length <= LONGEST_ROW;
    assert!(within_limits, "a case is too long");
    out.push(KIND);
    let lengths = [first, second].map(|list| list.len() as u32);
    out.extend(lengths.into_iter().flat_map(u32::to_le_bytes));
    out.extend(row_length.to_le_bytes());
    out.extend(first);
    out.extend(second);
}

/// The first byte is known to be the kind.
pub fn decode(file: &[u8]) -> Result<(Case, &[u8]), &'static str> {
    let mut reader = Reader(file);
    let [_] = reader.take()?;
    let [first_length, second_length] = [reader.number()?, reader.number()?];
    let row_length = u16::from_le_bytes(reader.take()?);
    if row_length > LONGEST_ROW {
        return Err("the row is too long");
    }
    let lists = (
        reader.part(first_length, LONGEST_LIST)?,
        reader.part(second_length, LONGEST_LIST)?,
    );
    Ok((Case::Compare { lists, row_length }, reader.0))
}

/// Before the call.
pub fn fresh_row(length: u16) -> Vec<u32> {
    (0..u32::from(length)).map(|i| u32::MAX - i).collect()
}

pub fn line((first, second): &Lists, row_length: u16) -> String {
    let mut row = fresh_row(row_length);
    let answer = sidebyside::compare(first, second, &mut row);
    spaced([u32::from(KIND)].into_iter().chain(answer).chain(row))
}

#[cfg(test)]
mod tests {
    use super::*;
    use crate::hex;
    use crate::records::{answer_lines, decode_all, testing};

    fn case(first: &str, second: &str, row_length: u16) -> Case {
        let lists = (hex::decode(first).unwrap(), hex::decode(second).unwrap());
        Case::Compare { lists, row_length }
    }

    #[test]
    fn records_are_laid_out_as_agreed() {
        let cases = [case("A0A1A2", "B0", 0x0102), case("", "B0B1", 0)];
        let expected = "15 03000000 01000000 0201 A0A1A2 B0 \
            15 00000000 02000000 0000 B0B1  00";
        testing::laid_out(&cases, expected);
    }

    #[test]
    fn lengths_over_the_limits_are_told() {
        for at in [1, 5] {
            testing::too_long_told(&case("A0", "B0", 1), at, LONGEST_LIST + 1);
        }
        let long_row = hex::decode("15 00000000 00000000 2D01 00").unwrap();
        assert!(decode_all(&long_row).unwrap_err().contains("too long"));
        let longest_row = hex::decode("15 00000000 00000000 2C01 00").unwrap();
        assert_eq!(decode_all(&longest_row).unwrap(), [case("", "", 300)]);
    }

    /// An allow and a deny for S-1-5 against the allow alone.
    #[test]
    fn lines() {
        let allow = "00 00 1000 01000000 01 00 000000000005";
        let deny = "01 00 1000 01000000 01 00 000000000005";
        let both = format!("0200 2800 0200 0000 {allow} {deny}");
        let one = format!("0200 1800 0100 0000 {allow}");
        let bad = one.replace("1800 0100", "1800 0200");
        let answers = answer_lines(&[
            case(&both, &one, 3),
            case(&one, &both, 1),
            case(&both, &one, 0),
            case(&one, &bad, 2),
        ]);
        let expected = "21 0 0 0 1 0 1 0 0 1 4294967294 4294967293\n\
             21 0 0 0 0 1 1 0 0 1\n\
             21 8 0 0 0 0 0 0 0\n\
             21 2 2 24 0 0 0 0 0 4294967295 4294967294\n";
        assert_eq!(answers, expected);
    }
}
