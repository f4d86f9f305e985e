//! Bytes as hexadecimal text.

/// Spaces between digits are passed over.
pub fn decode(text: &str) -> Result<Vec<u8>, String> {
    let digits = text
        .chars()
        .filter(|c| !c.is_whitespace())
        .map(|c| c.to_digit(16).ok_or(format!("{c:?} is no hex digit")))
        .collect::<Result<Vec<u32>, String>>()?;
    if digits.len() % 2 != 0 {
        return Err("an odd number of hex digits".to_string());
    }
    let bytes = digits.chunks(2).map(|pair| (pair[0] << 4 | pair[1]) as u8);
    Ok(bytes.collect())
}

/// As `decode`, over lines whose comments run from `#` to the line's end.
pub fn decode_commented(text: &str) -> Result<Vec<u8>, String> {
    let mut bytes = Vec::new();
    for (line, at) in text.lines().zip(1..) {
        let digits = line.split('#').next().unwrap_or_default();
        bytes.extend(decode(digits).map_err(|why| format!("line {at}: {why}"))?);
    }
    Ok(bytes)
}

pub fn encode(bytes: &[u8]) -> String {
    bytes.iter().map(|byte| format!("{byte:02x}")).collect()
}

#[cfg(test)]
mod tests {
    use super::*;

    #[test]
    fn both_ways() {
        assert_eq!(decode("0a FF 1 0").unwrap(), [0x0A, 0xFF, 0x10]);
        assert_eq!(encode(&[0x0A, 0xFF, 0x10]), "0aff10");
        assert!(decode("0").is_err());
        assert!(decode("0g").is_err());
    }

    #[test]
    fn comments_are_passed_over() {
        let text = "# 01\n02 03 # 04\n\n05#\n";
        assert_eq!(decode_commented(text).unwrap(), [2, 3, 5]);
        assert!(decode_commented("00\n0").unwrap_err().contains("line 2"));
    }
}
