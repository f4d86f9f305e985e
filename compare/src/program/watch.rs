//! What a child is doing, by what the system tells of it.

use std::fs;
use std::thread;
use std::time::{Duration, Instant};

/// Longer than any of the waits below takes on a busy machine.
const PATIENCE: Duration = Duration::from_secs(20);

#[cfg(target_arch = "x86_64")]
const WRITE: &str = "1";
#[cfg(not(target_arch = "x86_64"))]
const WRITE: &str = "64";

/// How many bytes it has asked to write, where it waits for that; `None` where
/// it does anything else.
pub fn waits_to_write(process: u32) -> Option<usize> {
    let told = fs::read_to_string(format!("/proc/{process}/syscall")).ok()?;
    let words: Vec<&str> = told.split_whitespace().collect();
    match words[..] {
        [WRITE, _, _, count, ..] => usize::from_str_radix(count.strip_prefix("0x")?, 16).ok(),
        _ => None,
    }
}

fn is_in_state(process: u32, states: &[&str]) -> bool {
    let told = fs::read_to_string(format!("/proc/{process}/stat")).unwrap_or_default();
    // The program's name stands before it, in parentheses.
    let behind = told.rsplit(')').next().unwrap_or_default();
    let state = behind.split_whitespace().next();
    state.is_some_and(|state| states.contains(&state))
}

pub fn is_stopped(process: u32) -> bool {
    is_in_state(process, &["T", "t"])
}

/// It has ended, and nobody has asked for its status yet.
pub fn has_ended(process: u32) -> bool {
    is_in_state(process, &["Z", "X"])
}

/// Asks again and again until there is something.
pub fn until<T>(what: &str, mut look: impl FnMut() -> Option<T>) -> Result<T, String> {
    let began = Instant::now();
    loop {
        if let Some(found) = look() {
            return Ok(found);
        }
        if began.elapsed() > PATIENCE {
            return Err(format!("waited too long: {what}"));
        }
        thread::sleep(Duration::from_micros(100));
    }
}
