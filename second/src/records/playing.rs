//! Records of whole scripts to be played: the byte 15, the script's length in
//! 32 bits, the length of `out` in 16, both little-endian, then the script.
//!
//! A script has at most 140,000 bytes, `out` at most 1,100; every byte of it is
//! AA before the call. The answer is a line as for calls that read back, with
//! the hash of the whole of `out`. Where the number is 0, the text follows as
//! it is, which ends in a newline.

use super::calls::{LONGEST_OUT, fnv_1a};
use super::sized::Layout;
use super::{Case, spaced};
use crate::script;
use crate::tree::OUT_BEFORE;

pub const KIND: u8 = 15;
pub const LONGEST_SCRIPT: usize = 140_000;

const LAYOUT: Layout = Layout {
    kind: KIND,
    most: LONGEST_SCRIPT,
    most_out: LONGEST_OUT,
};

pub fn encode(script: &[u8], out_length: u16, out: &mut Vec<u8>) {
    LAYOUT.encode(script, out_length, out);
}

pub fn decode(file: &[u8]) -> Result<(Case, &[u8]), &'static str> {
    let (script, out_length, rest) = LAYOUT.decode(file)?;
    Ok((Case::Play { script, out_length }, rest))
}

/// The line without its newline, and the text without its last one.
pub fn lines(script: &[u8], out_length: u16) -> String {
    let played = script::play(script);
    let mut out = vec![OUT_BEFORE; out_length.into()];
    let answer = played.answer(&mut out);
    let line = format!("{KIND} {} {:08x}", spaced(answer.eight()), fnv_1a(&out));
    match answer.number {
        0 => format!("{line}\n{}", played.text.trim_end()),
        _ => line,
    }
}

#[cfg(test)]
mod tests {
    use super::*;
    use crate::hex;
    use crate::records::{answer_lines, decode_all, encode_all};

    fn case(script: &[u8], out_length: u16) -> Case {
        let script = script.to_vec();
        Case::Play { script, out_length }
    }

    #[test]
    fn records_are_laid_out_as_agreed() {
        let cases = vec![case(b"AXS", 0x0102), case(&[], 0)];
        let file = encode_all(&cases);
        let expected = "0F 03000000 0201 415853  0F 00000000 0000  00";
        assert_eq!(file, hex::decode(expected).unwrap());
        assert_eq!(decode_all(&file).unwrap(), cases);
        for cut in 1..file.len() {
            assert!(decode_all(&file[..cut]).is_err(), "cut at {cut}");
        }
    }

    #[test]
    fn lengths_over_the_limits_are_told() {
        for head in ["0F E1220200 0000 00", "0F 00000000 4D04 00"] {
            let file = hex::decode(head).unwrap();
            assert!(decode_all(&file).unwrap_err().contains("too long"));
        }
    }

    #[test]
    fn lines_and_the_text() {
        let head_only = b"AXS\x01\x00";
        let answers = answer_lines(&[
            case(head_only, 10),
            case(head_only, 9),
            case(head_only, 12),
            case(b"AXT", 20),
        ]);
        let expected = format!(
            "15 0 0 0 10 1 0 0 0 {:08x}\nobjects 0\n\
             15 8 0 0 0 0 0 0 0 {:08x}\n\
             15 0 0 0 10 1 0 0 0 {:08x}\nobjects 0\n\
             15 0 0 0 9 0 0 0 0 {:08x}\nbad at 0\n",
            fnv_1a(b"objects 0\n"),
            fnv_1a(&[0xAA; 9]),
            fnv_1a(b"objects 0\n\xAA\xAA"),
            fnv_1a(b"bad at 0\n\xAA\xAA\xAA\xAA\xAA\xAA\xAA\xAA\xAA\xAA\xAA"),
        );
        assert_eq!(answers, expected);
    }
}
