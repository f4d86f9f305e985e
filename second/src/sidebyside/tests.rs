mod agree;
mod answers;
mod refusals;
mod worked;

use super::*;

/// A letter is an entry.
fn letters(word: &str) -> Vec<&[u8]> {
    word.as_bytes().chunks(1).collect()
}

/// The same as a list: each letter an entry of 16 bytes for S-1-5, with the
/// letter in its mask.
fn list(word: &str) -> Vec<u8> {
    let entries = word
        .bytes()
        .map(|letter| [0, 0, 16, 0, letter, 0, 0, 0, 1, 0, 0, 0, 0, 0, 0, 5]);
    let entries: Vec<u8> = entries.flatten().collect();
    let size = (8 + entries.len()) as u16;
    let mut list = vec![2, 0];
    list.extend(size.to_le_bytes());
    list.extend((word.len() as u16).to_le_bytes());
    list.extend([0, 0]);
    list.extend(entries);
    list
}

/// The same list with these bytes behind it.
fn roomy(word: &str, spare: &[u8]) -> Vec<u8> {
    let mut list = [&list(word), spare].concat();
    let size = list.len() as u16;
    list[2..4].copy_from_slice(&size.to_le_bytes());
    list
}

/// The answer, and the row: before the call its elements are 90, 91 and so on.
fn laid(first: &[u8], second: &[u8], row_length: u32) -> ([u32; 8], Vec<u32>) {
    let mut row: Vec<u32> = (90..90 + row_length).collect();
    let answer = compare(first, second, &mut row);
    (answer, row)
}

fn refused(number: u32, list: u32, offset: u32) -> [u32; 8] {
    [number, list, offset, 0, 0, 0, 0, 0]
}
