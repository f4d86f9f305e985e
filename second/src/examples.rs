//! The examples written by hand, each with the answer expected.
//! A line is `NAME ; ROW ; HEX ; NUMBER OFFSET LENGTH COUNT END`.

use crate::answer::Answer;
use crate::records::{Case, fresh_row};
use crate::{hex, reading};

pub struct Example {
    pub name: String,
    pub row_length: u16,
    pub list: Vec<u8>,
    pub expected: Answer,
}

impl Example {
    pub fn case(&self) -> Case {
        Case::Read {
            row_length: self.row_length,
            list: self.list.clone(),
        }
    }

    /// What differs from the answer written by hand, if anything does.
    pub fn difference(&self) -> Option<String> {
        let found = reading::read(&self.list, &mut fresh_row(self.row_length));
        let (expected, found) = (self.expected.eight(), found.eight());
        let Example { name, .. } = self;
        (found != expected).then(|| format!("{name}: expected {expected:?}, found {found:?}"))
    }
}

pub fn parse_all(text: &str) -> Result<Vec<Example>, String> {
    let lines = text.lines().map(str::trim).zip(1..);
    lines
        .filter(|(line, _)| !line.is_empty() && !line.starts_with('#'))
        .map(|(line, at)| parse(line).map_err(|why| format!("line {at}: {why}")))
        .collect()
}

fn parse(line: &str) -> Result<Example, String> {
    let fields: Vec<&str> = line.split(';').map(str::trim).collect();
    let [name, row, list, expected] = fields[..] else {
        return Err("not four fields".to_string());
    };
    Ok(Example {
        name: name.to_string(),
        row_length: number(row)?,
        list: hex::decode(list)?,
        expected: parse_expected(expected)?,
    })
}

fn number<T: std::str::FromStr>(text: &str) -> Result<T, String> {
    text.parse().map_err(|_| format!("{text:?} is no number"))
}

/// Present is 1 exactly when the number is 0; list and control are 0.
fn parse_expected(text: &str) -> Result<Answer, String> {
    let numbers = text
        .split_whitespace()
        .map(number)
        .collect::<Result<Vec<u32>, String>>()?;
    let [number, offset, length, count, end] = numbers[..] else {
        return Err("the answer isn't five numbers".to_string());
    };
    Ok(Answer {
        number,
        offset,
        length,
        present: u32::from(number == 0),
        count,
        end,
        ..Answer::default()
    })
}

#[cfg(test)]
mod tests {
    use super::*;

    const TEXT: &str = "# a comment\n\n\
        empty ; 0 ; 02 00 08 00 00 00 00 00 ; 0 0 8 0 8\n\
        nothing ; 3 ; ; 1 0 0 0 0\n\
        wrong ; 0 ; 0200 0900 0000 0000 00 ; 0 0 9 0 9\n";

    #[test]
    fn lines_are_read_and_compared() {
        let examples = parse_all(TEXT).unwrap();
        let differences: Vec<bool> = examples.iter().map(|e| e.difference().is_some()).collect();
        // The entries end at 8, before a spare byte: the third line is wrong on purpose.
        assert_eq!(differences, [false, false, true]);
        assert_eq!(examples[1].row_length, 3);
    }

    #[test]
    fn bad_lines_are_told() {
        assert!(parse_all("a ; 0 ; 00").is_err());
        assert!(parse_all("a ; 0 ; 0x ; 1 0 0 0 0").is_err());
        assert!(parse_all("a ; 0 ; 00 ; 1 0 0 0").is_err());
    }
}
