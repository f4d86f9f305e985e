//! Taking what a child writes, also where its writes wait or are cut short.
//!
//! Its text has at most 203 bytes. A pipe and a socket take so few bytes whole
//! or not at all (a pipe by PIPE_BUF, a socket since they are one packet of its
//! queue), and a write that may wait comes back short nowhere else than where a
//! signal meets it half done. A terminal's buffer is filled byte by byte. So:
//!
//! - a pipe of one page, in which a few bytes less than the text are free: the
//!   write has to wait until the page is drained, and is then done whole;
//! - a terminal in which a few bytes are free: the write takes these and waits.
//!   Then the child is stopped and goes on, and its write comes back short.
//!
//! What it asks to write is seen from outside (`watch`), before and after.

use std::fs::File;
use std::io::{self, ErrorKind, PipeReader, Read, Write};
use std::process::Stdio;
use std::thread;
use std::time::{Duration, Instant};

use super::posix::{Terminal, go_on, shrink_pipe, stop};
use super::watch::{has_ended, is_stopped, until, waits_to_write};
use second::random::Random;

/// So a terminal says that nobody writes to it any more.
const EIO: i32 = 5;
const FILLING: u8 = b'.';
/// Of a terminal's buffers, which are taken one by one as bytes come.
const AT_A_TIME: usize = 256;
/// More than a terminal ever holds.
const MOST_INSIDE: usize = 1 << 20;
const TRIES: usize = 3;
/// How long nothing may move before a terminal counts as full.
const QUIET: Duration = Duration::from_millis(200);

/// Where a child's text goes.
pub enum Output {
    Pipe(PipeReader),
    FullPipe { reader: PipeReader, inside: usize },
    Terminal { reader: File, inside: usize },
}

/// What was taken, and what was seen of the writes.
#[derive(Default)]
pub struct Taken {
    pub text: Vec<u8>,
    /// A write had to wait.
    pub waited: bool,
    /// A write of so many bytes came back with so many.
    pub short: Option<(usize, usize)>,
}

/// A pipe that takes everything.
pub fn pipe() -> io::Result<(Stdio, Output)> {
    let (reader, writer) = io::pipe()?;
    Ok((writer.into(), Output::Pipe(reader)))
}

/// As small as it can be; so many bytes of it are free.
pub fn full_pipe(free: usize) -> io::Result<(Stdio, Output)> {
    let (reader, mut writer) = io::pipe()?;
    let size = shrink_pipe(&writer, 1)?;
    let inside = size - free;
    writer.write_all(&vec![FILLING; inside])?;
    Ok((writer.into(), Output::FullPipe { reader, inside }))
}

/// How many bytes a terminal takes that nobody reads: the most of some tries,
/// since it moves them on in its own time.
pub fn terminal_size() -> io::Result<usize> {
    let mut size = 0;
    for _ in 0..TRIES {
        let terminal = Terminal::open()?;
        size = fill(&terminal.filler, MOST_INSIDE)?.max(size);
    }
    Ok(size)
}

/// Of that size; so many bytes of it are free.
pub fn full_terminal(size: usize, free: usize) -> io::Result<(Stdio, Output)> {
    let terminal = Terminal::open()?;
    let inside = size.saturating_sub(free);
    if fill(&terminal.filler, inside)? < inside {
        return Err(io::Error::other("a terminal takes less than another one"));
    }
    let reader = terminal.reader;
    let output = Output::Terminal { reader, inside };
    Ok((terminal.program.into(), output))
}

/// Until it takes no more for a while, or has taken so many.
fn fill(mut filler: &File, most: usize) -> io::Result<usize> {
    let mut filled = 0;
    let mut moved = Instant::now();
    while filled < most && moved.elapsed() < QUIET {
        // Behind the last whole buffer byte by byte.
        let length = if most - filled < AT_A_TIME {
            1
        } else {
            AT_A_TIME
        };
        match filler.write(&[FILLING; AT_A_TIME][..length]) {
            Ok(taken) => {
                filled += taken;
                moved = Instant::now();
            }
            Err(why) if why.kind() == ErrorKind::WouldBlock => thread::yield_now(),
            Err(why) => return Err(why),
        }
    }
    Ok(filled)
}

impl Output {
    /// All that the child writes until it ends.
    pub fn take(self, process: u32, random: &mut Random) -> Result<Taken, String> {
        match self {
            Output::Pipe(mut reader) => {
                let mut text = Vec::new();
                let read = reader.read_to_end(&mut text);
                read.map_err(|why| format!("reading: {why}"))?;
                Ok(Taken {
                    text,
                    ..Taken::default()
                })
            }
            Output::FullPipe { reader, inside } => {
                let waits = wait_for_a_write(process)?;
                Ok(Taken {
                    text: drained(reader, inside, random)?,
                    waited: waits.is_some(),
                    short: None,
                })
            }
            Output::Terminal { reader, inside } => {
                let waits = wait_for_a_write(process)?;
                let short = match waits {
                    Some(asked) => cut_short(process, asked)?,
                    None => None,
                };
                Ok(Taken {
                    text: drained(reader, inside, random)?,
                    waited: waits.is_some(),
                    short,
                })
            }
        }
    }
}

/// How much it asks to write; `None` where it ends without having to wait.
fn wait_for_a_write(process: u32) -> Result<Option<usize>, String> {
    until("for a write, or the end", || {
        match waits_to_write(process) {
            Some(asked) => Some(Some(asked)),
            None => has_ended(process).then_some(None),
        }
    })
}

/// Stops a child whose write waits, and lets it go on. What was taken is seen
/// by how much less it asks for then.
fn cut_short(process: u32, asked: usize) -> Result<Option<(usize, usize)>, String> {
    let failed = |why: io::Error| format!("a signal: {why}");
    stop(process).map_err(failed)?;
    until("for the stop", || is_stopped(process).then_some(()))?;
    go_on(process).map_err(failed)?;
    until("for the going on", || (!is_stopped(process)).then_some(()))?;
    let left = wait_for_a_write(process)?;
    Ok(match left {
        Some(left) if left < asked => Some((asked, asked - left)),
        _ => None,
    })
}

/// What comes behind the filling, taken in small pieces and not at once.
fn drained(mut reader: impl Read, inside: usize, random: &mut Random) -> Result<Vec<u8>, String> {
    let mut all = Vec::new();
    loop {
        let mut piece = vec![0; 1 + random.below(40)];
        match reader.read(&mut piece) {
            Ok(0) => break,
            Ok(taken) => all.extend(&piece[..taken]),
            Err(why) if why.raw_os_error() == Some(EIO) => break,
            Err(why) => return Err(format!("reading: {why}")),
        }
        if random.chance(1, 8) {
            thread::yield_now();
        }
    }
    if all.len() < inside || all[..inside].iter().any(|&byte| byte != FILLING) {
        return Err("what was filled in did not come back".to_string());
    }
    Ok(all.split_off(inside))
}
