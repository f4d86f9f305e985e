//! Changes at the very limit: the longest list that still fits and the next
//! one, which is refused for an object far below. They are tried on the side
//! before they are made.

use super::generate::{COMING_DOWN, SHORTEST};
use super::large::fits;
use second::cases::build::{EntryPlan, creator_sid, good_list, nt_sid, with_spare};
use second::cases::tree::make::{entries_of, set_list, set_mark, set_owner};
use second::random::Random;
use second::room::Found;
use second::tree::{Change, Object};

/// Of the lists that are tried, in steps of four bytes.
const LONGEST: usize = 1_000;
/// Which they may have behind their entries: in what is computed they never
/// count.
const MOST_SPARE: usize = 12;
/// Entries for the owner, each of which becomes longer with it.
const PLACEHOLDERS: usize = 3;

/// Of such changes.
pub const KINDS: usize = 3;

/// Some changes of which the last is refused, since a list below is too long;
/// all others are done. Empty where there are none.
pub fn at_the_limit(random: &mut Random, found: &Found, turn: usize) -> Vec<Change> {
    let sources = sources(&found.objects);
    let source = *random.pick(&sources);
    match turn % KINDS {
        0 => by_list(random, found, source),
        1 => by_owner(random, found, source),
        _ if sources.len() > 1 => {
            let above = random.below(sources.len() - 1);
            by_mark(random, found, sources[above], sources[above + 1])
        }
        _ => Vec::new(),
    }
}

/// The root, and objects that keep out what comes down to them: what is below
/// has its entries from the nearest of these.
fn sources(objects: &[Object]) -> Vec<usize> {
    let is_source = |number: &usize| {
        let object = &objects[*number];
        object.is_container && object.is_protected && object.own_list.is_some()
    };
    let others = (1..objects.len()).filter(is_source);
    [0].into_iter().chain(others).collect()
}

pub fn by_list(random: &mut Random, found: &Found, source: usize) -> Vec<Change> {
    let flags = *random.pick(&COMING_DOWN);
    let spare = random.below(MOST_SPARE + 1);
    let list_of = |bytes| vec![set_list(source as u32, of_bytes(flags, bytes, spare))];
    longest_that_fits(found, list_of)
        .map(|longest| [list_of(longest), list_of(longest + 4)].concat())
        .unwrap_or_default()
}

pub fn by_owner(random: &mut Random, found: &Found, source: usize) -> Vec<Change> {
    let flags = *random.pick(&COMING_DOWN);
    let number = random.word();
    let owner_of = |numbers: usize| {
        let owner = nt_sid(&vec![number; numbers]);
        set_owner(source as u32, owner.clone(), owner)
    };
    let list_of = |bytes| {
        let mut plans = entries_of(flags, bytes);
        let placeholder = EntryPlan::plain(0, flags, creator_sid(number % 2));
        plans.extend(vec![placeholder; PLACEHOLDERS]);
        vec![owner_of(0), set_list(source as u32, good_list(&plans))]
    };
    let Some(longest) = longest_that_fits(found, list_of) else {
        return Vec::new();
    };
    let mut changes = list_of(longest);
    let refused = (1..=15).map(owner_of).find(|change| {
        let tried = [&changes[..], std::slice::from_ref(change)].concat();
        !fits(found, &tried)
    });
    changes.extend(refused);
    changes
}

/// What comes down from above fits as long as a mark keeps it out.
pub fn by_mark(random: &mut Random, found: &Found, above: usize, marked: usize) -> Vec<Change> {
    let flags = *random.pick(&COMING_DOWN);
    let spare = random.below(MOST_SPARE + 1);
    let with_mark = |bytes| vec![set_list(above as u32, of_bytes(flags, bytes, spare))];
    let without = |bytes| [with_mark(bytes), vec![set_mark(marked as u32, false)]].concat();
    match longest_that_fits(found, without) {
        Some(longest) if fits(found, &with_mark(longest + 4)) => without(longest + 4),
        _ => Vec::new(),
    }
}

fn of_bytes(flags: u8, bytes: usize, spare: usize) -> Vec<u8> {
    with_spare(&good_list(&entries_of(flags, bytes)), &vec![0xEE; spare])
}

/// By halving: with more bytes no list is shorter. `None` where the shortest
/// doesn't fit, or the longest does.
fn longest_that_fits(found: &Found, changes_of: impl Fn(usize) -> Vec<Change>) -> Option<usize> {
    let fits = |bytes| fits(found, &changes_of(bytes));
    let (mut good, mut bad) = (SHORTEST, LONGEST);
    if !fits(good) || fits(bad) {
        return None;
    }
    while bad - good > 4 {
        let middle = (good + bad) / 8 * 4;
        if fits(middle) {
            good = middle;
        } else {
            bad = middle;
        }
    }
    Some(good)
}
