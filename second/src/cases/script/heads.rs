//! Heads that are wrong or short, with good records behind them or none.

use super::make::{Script, document};
use crate::script::HEAD;

pub fn scripts() -> Vec<Vec<u8>> {
    let with_records = document().bytes();
    let mut scripts = Vec::new();
    for (at, good) in HEAD.into_iter().enumerate() {
        for wrong in [
            good ^ 1,
            good ^ 0x20,
            good ^ 0x80,
            good.wrapping_add(1),
            0xFF,
        ] {
            let mut script = with_records.clone();
            script[at] = wrong;
            scripts.push(script[..HEAD.len()].to_vec());
            scripts.push(script);
        }
    }
    for version in [0, 2, 256, 257, 0x0201, 0x0100, u16::MAX] {
        let mut script = with_records.clone();
        script[3..5].copy_from_slice(&u16::to_le_bytes(version));
        scripts.push(script);
    }
    scripts.extend((0..HEAD.len()).map(|length| HEAD[..length].to_vec()));
    scripts.extend([
        // Short of a byte in its middle, with one too many, and twice over.
        [&HEAD[..3], &with_records[4..]].concat(),
        [&[0], &with_records[..]].concat(),
        [&HEAD[..], &with_records[..]].concat(),
        with_records[HEAD.len()..].to_vec(),
        b"axs\x01\x00".to_vec(),
        b"AXS1".to_vec(),
        b"AXS 1\n".to_vec(),
        [&[0xEF, 0xBB, 0xBF], &Script::new().bytes()[..]].concat(),
        vec![0; 5],
        vec![5; 5],
    ]);
    scripts
}
