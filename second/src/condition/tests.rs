mod accepted;
mod refused;
mod tables;
mod values;

use super::*;
use crate::hex;

/// The name "level" in 16-bit units.
const LEVEL: &str = "F8 0A000000 6C0065007600 65006C00";
const LEVEL_NAME: &str = "6C0065007600 65006C00";
/// The names "a" and "b".
const A: &str = "F8 02000000 6100";
const B: &str = "F8 02000000 6200";
const ONE: &str = "04 0100000000000000 03 02";
const TWO: &str = "04 0200000000000000 03 02";
const THREE: &str = "04 0300000000000000 03 02";

const EQUAL: &str = "80";
const AT_LEAST: &str = "85";
const EXISTS: &str = "87";
const AND: &str = "A0";
const OR: &str = "A1";
const NOT: &str = "A2";

const FALSE: [u32; 8] = [0; 8];
const TRUE: [u32; 8] = [0, 0, 0, 1, 0, 0, 0, 0];
const UNKNOWN: [u32; 8] = [0, 0, 0, 2, 0, 0, 0, 0];
const NOT_ACCEPTABLE: [u32; 8] = [15, 0, 0, 0, 0, 0, 0, 0];
const NOT_A_TABLE: [u32; 8] = [23, 0, 0, 0, 0, 0, 0, 0];

fn bytes(text: &str) -> Vec<u8> {
    hex::decode(text).unwrap()
}

/// The signature and these tokens.
fn stored(tokens: &[&str]) -> Vec<u8> {
    bytes(&format!("61727478 {}", tokens.concat()))
}

/// A record of a table; the length is counted.
fn record(name: &str, value: i64) -> Vec<u8> {
    let name = bytes(name);
    let length = name.len() as u16;
    [&length.to_le_bytes(), &name[..], &value.to_le_bytes()].concat()
}

fn evaluated(tokens: &[&str], table: &[u8]) -> [u32; 8] {
    evaluate(&stored(tokens), table)
}
