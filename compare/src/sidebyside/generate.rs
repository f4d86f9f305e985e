//! Fresh random pairs of lists: of few entries that differ, one in most cases
//! the other with some changes; some about 128 entries, some long, some bad.

use crate::mutate::{bad_list, conditional_at_times, mutate_list};
use second::cases::build::{
    EntryPlan, fix_size, list_of, nt_sid, random_list, random_spare, with_spare,
};
use second::cases::sidebyside::fresh::{self, Palette, row_length};
use second::cases::sidebyside::make::needed;
use second::random::Random;
use second::sidebyside::{FEW, Lists, MOST_ENTRIES};

const LONGEST_LIST: usize = 65_535;
/// As many entries as such a list holds.
const MOST_THERE_ARE: usize = 4_095;
/// Of most lists that aren't short.
const SOME_ENTRIES: usize = 20;

pub struct Subject {
    pub lists: Lists,
    pub row_length: usize,
    /// Where one is the other or lies in it, it is to be lent from there.
    pub together: bool,
}

pub fn subject(random: &mut Random) -> Subject {
    let together = random.chance(1, 8);
    let mut lists = good_lists(random);
    if together {
        share(random, &mut lists);
    }
    if random.chance(1, 4) {
        spoil(random, &mut lists);
    }
    let row_length = match needed(&lists) {
        Some(needed) => row_length(random, needed),
        None => random.below(8),
    };
    Subject {
        lists,
        row_length,
        together,
    }
}

/// But for some that are changed, or have more than 128 entries.
fn good_lists(random: &mut Random) -> Lists {
    match random.below(64) {
        0..2 => of_many(random),
        2..5 => about_the_most(random),
        5 if random.chance(1, 8) => over_by_far(random),
        5 => long(random),
        6..10 => of_all_kinds(random),
        10..34 => fresh::lists(random, SOME_ENTRIES),
        _ => fresh::lists(random, FEW),
    }
}

fn of_many(random: &mut Random) -> Lists {
    let most = SOME_ENTRIES + random.below(MOST_ENTRIES - SOME_ENTRIES);
    fresh::lists(random, most)
}

/// 126 to 130 in one list, and in the other as many, a few changes off, none of
/// the same, or few.
fn about_the_most(random: &mut Random) -> Lists {
    let palette = Palette::draw(random);
    let [one, other] = [0; 2].map(|_: usize| MOST_ENTRIES - 2 + random.below(5));
    let first = palette.some(random, one);
    let mut second = palette.some(random, other);
    match random.below(6) {
        0 => {}
        1 => second.truncate(random.below(FEW)),
        2 => {
            for entry in &mut second {
                // Another mask.
                entry[4] ^= 0xFF;
            }
        }
        _ => second = palette.edited(random, &first),
    }
    let lists = palette.laid(random, &first, &second);
    either_first(random, lists)
}

/// Thousands in one of them; in half of those a late one is bad.
fn over_by_far(random: &mut Random) -> Lists {
    let count = 1 + random.below(MOST_THERE_ARE);
    let mut many = vec![EntryPlan::plain(0, 0, nt_sid(&[])).bytes(); count];
    if random.chance(1, 2) {
        let late = count - 1 - random.below(count.div_ceil(4));
        many[late][1] = 0x20;
    }
    let (few, _) = fresh::lists(random, FEW);
    either_first(random, (list_of(2, &many), few))
}

/// Entries that have nothing to do with each other, and a change or two.
fn of_all_kinds(random: &mut Random) -> Lists {
    let count = random.below(8);
    let list = random_list(random, 4, count);
    let first = conditional_at_times(random, list);
    let mut second = first.clone();
    for _ in 0..random.below(3) {
        // What becomes bad is told by its number.
        mutate_list(random, &mut second);
    }
    (first, second)
}

/// Spare bytes up to the greatest length, the same or not.
fn long(random: &mut Random) -> Lists {
    let (first, second) = fresh::lists(random, FEW);
    let longest = first.len().max(second.len());
    let length = match random.below(16) {
        0 => LONGEST_LIST - longest,
        1 => random.below(LONGEST_LIST - longest),
        _ => random.below(1_000),
    };
    let spare = random_spare(random, length);
    let mut other = spare.clone();
    match random.below(3) {
        0 if length > 0 => other[random.below(length)] ^= 1,
        1 => other.truncate(random.below(length + 1)),
        _ => {}
    }
    let lists = (with_spare(&first, &spare), with_spare(&second, &other));
    either_first(random, lists)
}

fn either_first(random: &mut Random, (first, second): Lists) -> Lists {
    match random.below(2) {
        0 => (first, second),
        _ => (second, first),
    }
}

/// The same list twice, or one in the other's spare bytes.
fn share(random: &mut Random, (first, second): &mut Lists) {
    let fits = first.len() + second.len() <= LONGEST_LIST;
    match random.below(4) {
        0 => *second = first.clone(),
        1 => *first = second.clone(),
        2 if fits => *first = with_spare(first, second),
        _ if fits => *second = with_spare(second, first),
        _ => {}
    }
}

/// One of them, or both.
fn spoil(random: &mut Random, (first, second): &mut Lists) {
    let which = random.below(8);
    if which < 5 {
        spoil_list(random, first);
    }
    if which >= 4 {
        spoil_list(random, second);
    }
}

fn spoil_list(random: &mut Random, list: &mut Vec<u8>) {
    match random.below(16) {
        0 => {
            let length = random.below(40);
            *list = random.bytes(length);
        }
        1 => list.truncate(random.below(list.len() + 1)),
        2 if random.chance(1, 8) => {
            // Its size, cut to 16 bits, may still be what it says.
            list.resize(list.len() + 0x1_0000 - 8 * random.below(2), 0);
            if random.chance(1, 2) {
                fix_size(list);
            }
        }
        3..8 => mutate_list(random, list),
        _ => *list = bad_list(random),
    }
}
