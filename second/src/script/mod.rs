//! The script program: plays a whole script held in memory and tells what
//! stands at its end.

mod read;
mod write;

pub use read::Bad;
pub use write::record;

use crate::answer::Answer;
use crate::list::List;
use crate::room::Found;
use crate::tree::{Call, Calls, Limits, Outcome, Settings, play_on};

/// `AXS` and version 1.
pub const HEAD: [u8; 5] = *b"AXS\x01\x00";
pub const MOST_OBJECTS: usize = 16;
pub const MOST_STEPS: usize = 16;
const RULE: u32 = 2;
/// Read, write, execute, all.
const MAPPING: [u32; 4] = [0x0012_0089, 0x0012_0116, 0x0012_00A0, 0x001F_01FF];

/// The tree that every script begins with. Its steps are kept one by one, so
/// that neither refused records nor long scripts make the next record dearer.
pub fn empty_tree() -> Found {
    Found {
        limits: Limits {
            objects: MOST_OBJECTS,
            steps: MOST_STEPS,
        },
        settings: Settings {
            rule: RULE,
            mapping: MAPPING,
            default_list: None,
        },
        objects: Vec::new(),
        lists: Vec::new(),
        steps: Vec::new(),
    }
}

#[derive(Clone, Copy, Debug, PartialEq, Eq)]
pub enum Ending {
    Listing {
        objects: usize,
    },
    /// At the offset of the record, 0 for the head.
    Bad {
        at: usize,
        why: Bad,
    },
}

#[derive(Clone, Debug, PartialEq, Eq)]
pub struct Played {
    pub ending: Ending,
    pub text: String,
}

impl Played {
    /// Fills the front of `out` with the text, or leaves it as it was.
    pub fn answer(&self, out: &mut [u8]) -> Answer {
        let Some(front) = out.get_mut(..self.text.len()) else {
            return Answer::refused_as_a_whole(8);
        };
        front.copy_from_slice(self.text.as_bytes());
        match self.ending {
            Ending::Listing { objects } => Answer::done(self.text.len(), objects),
            Ending::Bad { .. } => Answer {
                present: 0,
                ..Answer::done(self.text.len(), 0)
            },
        }
    }
}

pub fn play(script: &[u8]) -> Played {
    play_watched(script, |_, _| {})
}

/// Shows each record with what became of it, refused ones too.
pub fn play_watched(script: &[u8], watch: impl FnMut(&Call, &Outcome)) -> Played {
    match tree_at_the_end(script, watch) {
        Ok(tree) => Played {
            ending: Ending::Listing {
                objects: tree.objects.len(),
            },
            text: listing(&tree),
        },
        Err((at, why)) => Played {
            ending: Ending::Bad { at, why },
            text: format!("bad at {at}\n"),
        },
    }
}

fn tree_at_the_end(
    script: &[u8],
    mut watch: impl FnMut(&Call, &Outcome),
) -> Result<Found, (usize, Bad)> {
    let mut rest = script.strip_prefix(&HEAD).ok_or((0, Bad::Head))?;
    let mut tree = empty_tree();
    while !rest.is_empty() {
        let at = script.len() - rest.len();
        let (call, behind) = read::record(rest).map_err(|why| (at, why))?;
        let outcome = play_on(Some(&mut tree), &call);
        watch(&call, &outcome);
        rest = behind;
    }
    Ok(tree)
}

fn listing(tree: &Found) -> String {
    let mut text = format!("objects {}\n", tree.objects.len());
    for number in 0..tree.objects.len() {
        text += &match tree.list(number) {
            None => format!("{number} none 0\n"),
            Some(list) => {
                let entries = List::parse(&list).expect("computed lists are good").entries;
                format!("{number} {} {}\n", list.len(), entries.len())
            }
        };
    }
    text
}

#[cfg(test)]
mod tests;
