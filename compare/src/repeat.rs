//! The same call many times over, so that its instructions can be counted and
//! its time taken. bench/run makes a table of both.

mod access;
mod computing;
mod conditions;
mod lists;
mod playing;
mod reading;
mod sidebyside;
mod texts;
mod tree;

use std::thread::yield_now;
use std::time::{Duration, Instant};

use computing::Computing;
use lists::{Inheritable, plain};
use sidebyside::{Comparing, Second};

/// Spare bytes of a list that is read, and of a parent's.
const SPARE_READ: usize = 60_000;
const SPARE_COMPUTED: usize = 2_000;

/// Of a condition.
const TOKENS: usize = 64;

/// Who is called.
#[derive(Clone, Copy)]
pub enum Side {
    Library,
    Second,
}

/// One call, again and again on the same input.
pub trait Repeated {
    /// Brings the input back where a call has changed it; isn't measured.
    fn bring_back(&mut self) {}
    fn call(&mut self);
    /// The answer of the last call, and all that it left.
    fn outcome(&self) -> ([u32; 8], String);
}

/// A short call is measured a thousand at a time, one on a long list ten, and
/// nothing has to be brought back in between.
fn at_a_time(what: &str) -> usize {
    match what.split_once('_') {
        Some(("read" | "compute" | "search", of)) if of.ends_with("3000") => 10,
        Some(("compare", of)) if of.ends_with("128") => 10,
        Some((
            "read" | "compute" | "search" | "may" | "step" | "evaluate" | "condition" | "compare",
            _,
        )) => 1_000,
        _ => 1,
    }
}

/// Measures so many times; `None` where there is no such call.
pub fn run(how: &str, who: &str, what: &str, times: usize) -> Option<()> {
    let side = match who {
        "library" => Side::Library,
        "second" => Side::Second,
        _ => return None,
    };
    let measure = match how {
        "time" => time,
        "count" => count,
        _ => return None,
    };
    check_that_both_agree(what)?;
    measure(repeated(side, what)?.as_mut(), at_a_time(what), times);
    Some(())
}

/// Prints the shortest time of one call in nanoseconds.
fn time(repeated: &mut dyn Repeated, at_a_time: usize, times: usize) {
    let shortest = (0..times)
        .map(|_| {
            repeated.bring_back();
            let before = Instant::now();
            measured_calls(repeated, at_a_time);
            before.elapsed()
        })
        .min()
        .unwrap_or(Duration::ZERO);
    println!("{}", shortest.as_nanos() / at_a_time as u128);
}

/// Prints how many calls there are between two marks. The first two have none
/// between them, which tells what the marks take.
fn count(repeated: &mut dyn Repeated, at_a_time: usize, times: usize) {
    println!("{at_a_time}");
    marked_calls(repeated, 0);
    for _ in 0..times {
        repeated.bring_back();
        marked_calls(repeated, at_a_time);
    }
}

/// The mark is a system call, which bench/counter.c sees.
fn marked_calls(repeated: &mut dyn Repeated, calls: usize) {
    yield_now();
    measured_calls(repeated, calls);
    yield_now();
}

#[inline(never)]
fn measured_calls(repeated: &mut dyn Repeated, calls: usize) {
    for _ in 0..calls {
        repeated.call();
    }
}

/// On `read_N`, `read_spare_N`, `read_condition_64`, `compute_N`,
/// `compute_spare_N`, `set_list_N`, `undo_N`, `full_tree`, `play_N`,
/// `may_open_16`, `may_open_100`, `may_open_with_16`, `step_N`, `evaluate_64`,
/// `condition_12`, `condition_64`,
/// and `compute_WHICH_N` and `search_WHICH_N`, where WHICH is `first`, `last`
/// or `none`, and says which of the parent's entries is inheritable; and
/// `compare_WHICH_N`, where it is `equal`, `removed` or `apart`, and says what
/// the second list is to the first.
fn repeated(side: Side, what: &str) -> Option<Box<dyn Repeated>> {
    if what == "full_tree" {
        return Some(Box::new(tree::mark_on_the_full_tree(side)));
    }
    let (name, number) = what.rsplit_once('_')?;
    let number = number.parse().ok()?;
    Some(match name {
        "read" => Box::new(reading::Reading::of_entries(side, number, 0)),
        "read_spare" => Box::new(reading::Reading::of_entries(side, number, SPARE_READ)),
        "compute" => Box::new(Computing::below(side, plain(number, Inheritable::All, 0))),
        "compute_spare" => {
            let parent = plain(number, Inheritable::All, SPARE_COMPUTED);
            Box::new(Computing::below(side, parent))
        }
        "set_list" => Box::new(tree::set_list(side, number)),
        "undo" => Box::new(tree::undo(side, number)),
        "play" => Box::new(playing::Playing::of_records(side, number)),
        "may_open" => Box::new(access::Opening::of_entries(
            side,
            number,
            held_with(number)?,
        )),
        "step" => Box::new(access::Stepping::of_entries(side, number)),
        "read_condition" if number == TOKENS => Box::new(reading::Reading::of_list(
            side,
            conditions::list_of_64_tokens(),
            1,
        )),
        "evaluate" if number == TOKENS => Box::new(conditions::Evaluating::of_64_tokens(side)),
        "condition" => Box::new(texts::Translating::of_tokens(side, number)?),
        "may_open_with" => Box::new(conditions::Opening::of_entries(
            side,
            number,
            held_with(number)?,
        )),
        _ => {
            let (call, which) = name.split_once('_')?;
            let parent = || Some(plain(number, Inheritable::by_name(which)?, 0));
            match call {
                "compute" => Box::new(Computing::below(side, parent()?)),
                "search" => Box::new(Computing::searching(side, parent()?)),
                "compare" => Box::new(Comparing::of_entries(side, number, Second::by_name(which)?)),
                _ => return None,
            }
        }
    })
}

/// How many SIDs are held with a list of so many entries.
fn held_with(entries: usize) -> Option<usize> {
    match entries {
        16 => Some(8),
        100 => Some(32),
        _ => None,
    }
}

/// Both accept the call and leave the same.
fn check_that_both_agree(what: &str) -> Option<()> {
    let [library, second] = [Side::Library, Side::Second].map(|side| {
        let mut repeated = repeated(side, what)?;
        repeated.bring_back();
        repeated.call();
        Some(repeated.outcome())
    });
    let (library, second) = (library?, second?);
    assert_eq!(library.0[0], 0, "the call is accepted");
    assert!(library == second, "both sides leave the same");
    Some(())
}
