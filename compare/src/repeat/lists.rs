//! Lists that are measured with.

use second::cases::build::{EntryPlan, creator_sid, good_list, nt_sid, with_spare};

/// Inherited by containers and other objects.
const BOTH: u8 = 0x03;
/// To read, to be mapped.
const GENERIC_READ: u32 = 0x8000_0000;

/// Which entries are inherited.
#[derive(Clone, Copy)]
pub enum Inheritable {
    All,
    First,
    Last,
    None,
}

impl Inheritable {
    pub fn by_name(name: &str) -> Option<Inheritable> {
        match name {
            "first" => Some(Inheritable::First),
            "last" => Some(Inheritable::Last),
            "none" => Some(Inheritable::None),
            _ => None,
        }
    }

    fn flags(self, number: usize, entries: usize) -> u8 {
        let is_inherited = match self {
            Inheritable::All => true,
            Inheritable::First => number == 0,
            Inheritable::Last => number + 1 == entries,
            Inheritable::None => false,
        };
        if is_inherited { BOTH } else { 0 }
    }
}

/// Allowing and denying in turn, for S-1-5-18, 20 bytes each, and so many
/// spare bytes.
pub fn plain(entries: usize, inheritable: Inheritable, spare: usize) -> Vec<u8> {
    let plans = (0..entries).map(|number| {
        let flags = inheritable.flags(number, entries);
        EntryPlan {
            mask: 1,
            ..EntryPlan::plain((number % 2) as u8, flags, nt_sid(&[18]))
        }
    });
    let list = good_list(&plans.collect::<Vec<_>>());
    with_spare(&list, &vec![0xEE; spare])
}

/// One in four is for the creator owner, and generic; the others are for
/// S-1-5 and a number each, counted from `first`.
pub fn mixed(entries: usize, first: u32) -> Vec<u8> {
    let plans = (0..entries).map(|number| match number % 4 {
        0 => generic_for_creator(),
        _ => EntryPlan::plain(0, BOTH, nt_sid(&[first + number as u32])),
    });
    good_list(&plans.collect::<Vec<_>>())
}

/// Below it every entry becomes two.
pub fn of_creators(entries: usize) -> Vec<u8> {
    good_list(&vec![generic_for_creator(); entries])
}

fn generic_for_creator() -> EntryPlan {
    EntryPlan {
        mask: GENERIC_READ,
        ..EntryPlan::plain(0, BOTH, creator_sid(0))
    }
}
