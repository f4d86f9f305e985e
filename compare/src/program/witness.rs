//! A program that tells how its reads and writes came: `compare program` runs
//! it as it runs the program, so that what the ways reach is counted on the
//! inside too.

use std::fmt;
use std::fs::File;
use std::io::{self, Read, Write};
use std::os::fd::AsFd;

/// As long as the longest listing.
pub const TEXT: [u8; 203] = [b'w'; 203];
/// More than a read can give of a short input.
const MOST: usize = 65_536;

#[derive(Debug, Default, PartialEq, Eq)]
pub struct Seen {
    pub reads: usize,
    pub longest_read: usize,
    pub writes: usize,
    /// What the first one gave.
    pub first_write: usize,
}

impl fmt::Display for Seen {
    fn fmt(&self, to: &mut fmt::Formatter) -> fmt::Result {
        write!(
            to,
            "{} reads, the longest of {} bytes, {} writes, the first of {} bytes",
            self.reads, self.longest_read, self.writes, self.first_write
        )
    }
}

impl Seen {
    /// By the numbers alone.
    pub fn parse(text: &str) -> Option<Seen> {
        let words = text.split_whitespace();
        let numbers: Vec<usize> = words.filter_map(|word| word.parse().ok()).collect();
        match numbers[..] {
            [reads, longest_read, writes, first_write] => Some(Seen {
                reads,
                longest_read,
                writes,
                first_write,
            }),
            _ => None,
        }
    }
}

/// Reads all of standard input and writes its text, each by single calls of
/// the system; tells of them on standard error.
pub fn run() -> io::Result<()> {
    let mut input = File::from(io::stdin().as_fd().try_clone_to_owned()?);
    let mut output = File::from(io::stdout().as_fd().try_clone_to_owned()?);
    let mut seen = Seen::default();
    let mut bytes = vec![0; MOST];
    loop {
        let read = input.read(&mut bytes)?;
        if read == 0 {
            break;
        }
        seen.reads += 1;
        seen.longest_read = read.max(seen.longest_read);
    }
    let mut rest = &TEXT[..];
    while !rest.is_empty() {
        let written = output.write(rest)?;
        seen.writes += 1;
        if seen.writes == 1 {
            seen.first_write = written;
        }
        rest = &rest[written..];
    }
    eprintln!("{seen}");
    Ok(())
}
