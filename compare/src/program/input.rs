//! Handing a script over to a child.

use std::io::{self, Write};
use std::process::ChildStdin;
use std::thread;

use super::posix::{bytes_inside, reader_is_gone};
use second::random::Random;

/// Longer scripts aren't handed over byte by byte.
pub const LONGEST_IN_SINGLE_BYTES: usize = 4_000;

/// Each piece is a write of its own. The program may end before it has read
/// everything.
pub fn in_pieces(mut input: ChildStdin, script: &[u8], mut random: Random) -> io::Result<()> {
    let longest = longest_piece(&mut random, script.len());
    let mut rest = script;
    while !rest.is_empty() {
        let length = match random.below(8) {
            0 => 1,
            _ => 1 + random.below(longest),
        };
        let (piece, behind) = rest.split_at(length.min(rest.len()));
        if !written(&mut input, piece)? {
            return Ok(());
        }
        if random.chance(1, 4) {
            thread::yield_now();
        }
        rest = behind;
    }
    Ok(())
}

/// Single bytes only where the script is short.
fn longest_piece(random: &mut Random, script: usize) -> usize {
    match random.below(6) {
        0 if script <= LONGEST_IN_SINGLE_BYTES => 1,
        0 | 1 => 1 + script / 1_000 + random.below(64),
        2 => 4_096,
        3 => 65_536,
        4 => script.max(1),
        _ => 1 + random.below(script.max(1)),
    }
}

/// Whether somebody is there to read it.
fn written(input: &mut ChildStdin, bytes: &[u8]) -> io::Result<bool> {
    match input.write_all(bytes) {
        Ok(()) => Ok(true),
        Err(why) if why.kind() == io::ErrorKind::BrokenPipe => Ok(false),
        Err(why) => Err(why),
    }
}

/// A byte is written when the one before it has been read. So the pipe never
/// holds more than one, and every read that gives something gives one byte:
/// what is given back is how many such reads there were.
pub fn in_single_bytes(mut input: ChildStdin, script: &[u8]) -> io::Result<usize> {
    for (handed, byte) in script.iter().enumerate() {
        if !written(&mut input, &[*byte])? {
            return Ok(handed);
        }
        while bytes_inside(&input)? > 0 {
            if reader_is_gone(&input)? {
                return Ok(handed);
            }
            thread::yield_now();
        }
    }
    Ok(script.len())
}
