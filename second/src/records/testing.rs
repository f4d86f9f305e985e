//! What the tests of records have in common.

use super::{Case, decode_all, encode_all};
use crate::hex;

/// These cases are laid out so, and a file that is cut is no case file.
pub fn laid_out(cases: &[Case], expected: &str) {
    let file = encode_all(cases);
    assert_eq!(file, hex::decode(expected).unwrap());
    assert_eq!(decode_all(&file).unwrap(), cases);
    for cut in 0..file.len() {
        assert!(decode_all(&file[..cut]).is_err(), "cut at {cut}");
    }
}

/// The three bytes behind a kind are zeros.
pub fn other_heads_told(cases: &[Case]) {
    for case in cases {
        for at in 1..4 {
            let mut file = encode_all(std::slice::from_ref(case));
            file[at] = 1;
            assert!(decode_all(&file).unwrap_err().contains("unknown head"));
        }
    }
}

/// With the 32-bit length at that place over its limit.
pub fn too_long_told(case: &Case, at: usize, over: usize) {
    let mut file = encode_all(std::slice::from_ref(case));
    file.resize(80_000, 0);
    file[at..at + 4].copy_from_slice(&(over as u32).to_le_bytes());
    assert!(decode_all(&file).unwrap_err().contains("too long"));
}
