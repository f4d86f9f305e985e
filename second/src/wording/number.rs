//! The digits of an integer, one after the other, within signed 64 bits.

/// How far each sign goes, as it is written.
const GREATEST: &[u8] = b"9223372036854775807";
const LEAST: &[u8] = b"9223372036854775808";

/// What stands of an integer so far.
#[derive(Clone, Debug, Default)]
pub struct Number {
    is_negative: bool,
    /// Without zeros in front.
    digits: Vec<u8>,
}

impl Number {
    pub fn negative() -> Number {
        Number {
            is_negative: true,
            ..Number::default()
        }
    }

    /// Whether it stays within the range: of two numerals without zeros in
    /// front the longer is the greater, of two as long the later in order.
    pub fn takes(&mut self, digit: u8) -> bool {
        if !self.digits.is_empty() || digit != b'0' {
            self.digits.push(digit);
        }
        let most = if self.is_negative { LEAST } else { GREATEST };
        let lengths = (self.digits.len(), most.len());
        lengths.0 < lengths.1 || (lengths.0 == lengths.1 && self.digits[..] <= *most)
    }
}

/// The value of a whole integer, which is known to be in the range.
pub fn value(written: &str) -> i64 {
    let wide: i128 = written.parse().expect("a sign and digits");
    i64::try_from(wide).expect("it is within 64 bits")
}
