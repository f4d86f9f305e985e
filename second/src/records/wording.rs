//! Records of a condition's text: the byte 20, the text's length in 32 bits,
//! the length of `out` in 16, both little-endian, then the text.
//!
//! A text has at most 2,000 bytes, `out` at most 4,000; every byte of it is AA
//! before the call. The answer is a line: 20, the answer's eight numbers,
//! decimal, and the hash of the whole of `out`.

use super::calls::fnv_1a;
use super::sized::Layout;
use super::{Case, spaced};
use crate::tree::OUT_BEFORE;
use crate::wording;

pub const KIND: u8 = 20;
pub const LONGEST_TEXT: usize = 2_000;
pub const LONGEST_OUT: u16 = 4_000;

const LAYOUT: Layout = Layout {
    kind: KIND,
    most: LONGEST_TEXT,
    most_out: LONGEST_OUT,
};

pub fn encode(text: &[u8], out_length: u16, out: &mut Vec<u8>) {
    LAYOUT.encode(text, out_length, out);
}

pub fn decode(file: &[u8]) -> Result<(Case, &[u8]), &'static str> {
    let (text, out_length, rest) = LAYOUT.decode(file)?;
    Ok((Case::Condition { text, out_length }, rest))
}

pub fn line(text: &[u8], out_length: u16) -> String {
    let mut out = vec![OUT_BEFORE; out_length.into()];
    let answer = wording::condition(text, &mut out);
    format!("{KIND} {} {:08x}", spaced(answer), fnv_1a(&out))
}

#[cfg(test)]
mod tests {
    use super::*;
    use crate::hex;
    use crate::records::{answer_lines, decode_all, testing};

    fn case(text: &[u8], out_length: u16) -> Case {
        let text = text.to_vec();
        Case::Condition { text, out_length }
    }

    #[test]
    fn records_are_laid_out_as_agreed() {
        let cases = [case(b"a<1", 0x0102), case(&[], 0)];
        let expected = "14 03000000 0201 613C31  14 00000000 0000  00";
        testing::laid_out(&cases, expected);
    }

    #[test]
    fn lengths_over_the_limits_are_told() {
        for head in ["14 D1070000 0000 00", "14 00000000 A10F 00"] {
            let file = hex::decode(head).unwrap();
            assert!(decode_all(&file).unwrap_err().contains("too long"));
        }
    }

    #[test]
    fn lines() {
        let form = "61727478 F8 02000000 6100 04 0100000000000000 03 02 82";
        let form = hex::decode(form).unwrap();
        let answers = answer_lines(&[
            case(b"a<1", 23),
            case(b"a<1", 25),
            case(b"a<1", 22),
            case(b"a<", 3),
            case(b"", 0),
        ]);
        let expected = format!(
            "20 0 0 0 23 1 3 0 0 {:08x}\n\
             20 0 0 0 23 1 3 0 0 {:08x}\n\
             20 8 0 0 0 0 0 0 0 {:08x}\n\
             20 16 0 2 0 0 0 0 0 {:08x}\n\
             20 16 0 0 0 0 0 0 0 811c9dc5\n",
            fnv_1a(&form),
            fnv_1a(&[form, vec![0xAA; 2]].concat()),
            fnv_1a(&[0xAA; 22]),
            fnv_1a(&[0xAA; 3]),
        );
        assert_eq!(answers, expected);
    }
}
