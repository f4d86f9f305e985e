//! The reader's call: a list and a lent row for its index.

use crate::answer::Answer;
use crate::list::List;
use crate::refusal::{Fault, Refusal};

/// Fills the row's front with the offsets, or leaves the row as it was.
pub fn try_read<'a>(list: &'a [u8], row: &mut [u16]) -> Result<List<'a>, Refusal> {
    let parsed = List::parse(list)?;
    let Some(front) = row.get_mut(..parsed.entries.len()) else {
        return Err(Refusal {
            fault: Fault::RowTooShort,
            offset: 0,
        });
    };
    for (place, entry) in front.iter_mut().zip(&parsed.entries) {
        *place = u16::try_from(entry.offset).expect("a good list is under 65,536 bytes");
    }
    Ok(parsed)
}

/// The reader gives list 0.
pub fn read(list: &[u8], row: &mut [u16]) -> Answer {
    match try_read(list, row) {
        Ok(parsed) => Answer::read(list.len(), parsed.entries.len(), parsed.end),
        Err(refusal) => Answer::refused(refusal, 0),
    }
}

#[cfg(test)]
mod tests {
    use super::*;
    use crate::hex;

    const PAIR: &str = "0200 2800 0200 0000 \
        00 00 1000 01000000 01 00 000000000005 01 1F 1000 02000000 01 00 000000000005";

    fn run(text: &str, row: &mut [u16]) -> [u32; 8] {
        read(&hex::decode(text).unwrap(), row).eight()
    }

    #[test]
    fn the_index_and_the_rest_of_the_row() {
        let mut row = [7, 7, 7];
        assert_eq!(run(PAIR, &mut row), [0, 0, 0, 40, 1, 2, 0, 40]);
        assert_eq!(row, [8, 24, 7]);
    }

    #[test]
    fn a_short_row_stays_as_it_was() {
        let mut row = [7];
        assert_eq!(run(PAIR, &mut row), [8, 0, 0, 0, 0, 0, 0, 0]);
        assert_eq!(row, [7]);
    }

    #[test]
    fn an_empty_list_needs_no_row() {
        assert_eq!(run("0200080000000000", &mut []), [0, 0, 0, 8, 1, 0, 0, 8]);
    }

    /// The same two entries, with any bytes behind them or a smaller count.
    #[test]
    fn spare_bytes_are_counted_in_the_length_alone() {
        let spare = PAIR.replace("2800", "2B00") + "FF FF FF";
        let mut row = [7, 7, 7];
        assert_eq!(run(&spare, &mut row), [0, 0, 0, 43, 1, 2, 0, 40]);
        assert_eq!(row, [8, 24, 7]);
        let hidden = PAIR.replace("2800 0200", "2800 0100");
        let mut row = [7, 7, 7];
        assert_eq!(run(&hidden, &mut row), [0, 0, 0, 40, 1, 1, 0, 24]);
        assert_eq!(row, [8, 7, 7]);
        let all_spare = PAIR.replace("2800 0200", "2800 0000");
        assert_eq!(run(&all_spare, &mut []), [0, 0, 0, 40, 1, 0, 0, 8]);
    }

    #[test]
    fn a_short_row_is_refused_with_spare_bytes_too() {
        let spare = PAIR.replace("2800", "2900") + "00";
        let mut row = [7];
        assert_eq!(run(&spare, &mut row), [8, 0, 0, 0, 0, 0, 0, 0]);
        assert_eq!(row, [7]);
    }

    #[test]
    fn a_bad_list_comes_before_a_short_row() {
        let bad = PAIR.replace("1F", "20");
        let mut row = [7];
        assert_eq!(run(&bad, &mut row), [4, 0, 24, 0, 0, 0, 0, 0]);
        assert_eq!(row, [7]);
    }
}
