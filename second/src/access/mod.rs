//! Who may open: document 02's second ticket, bit by bit as its sentence
//! says it, with the fifth's conditions, and the walk from entry to entry.

mod conditions;
mod held;
mod question;
mod refused;
mod step;

use crate::ace::{GENERIC, INHERIT_ONLY};
use crate::condition::Table;
use crate::list::{Entry, Guid, List};
use conditions::applies;
pub use conditions::truths;
pub use held::{MOST_HELD, held_sids};
pub use question::Question;
pub use refused::Refused;
pub use step::{step, try_step};

/// Why it is a yes or a no. Where several bits fail, the lowest tells.
#[derive(Clone, Copy, Debug, PartialEq, Eq)]
pub enum Verdict {
    NoList,
    NothingWanted,
    EveryBitAllowed,
    BitDenied,
    BitUnspoken,
}

impl Verdict {
    pub const ALL: [Verdict; 5] = [
        Verdict::NoList,
        Verdict::NothingWanted,
        Verdict::EveryBitAllowed,
        Verdict::BitDenied,
        Verdict::BitUnspoken,
    ];

    pub fn is_yes(self) -> bool {
        !matches!(self, Verdict::BitDenied | Verdict::BitUnspoken)
    }

    pub fn name(self) -> &'static str {
        match self {
            Verdict::NoList => "yes: no list",
            Verdict::NothingWanted => "yes: nothing wanted",
            Verdict::EveryBitAllowed => "yes: every bit allowed",
            Verdict::BitDenied => "no: a bit denied",
            Verdict::BitUnspoken => "no: a bit unspoken",
        }
    }
}

/// The eight numbers of the answer, without any attribute.
pub fn may_open(question: &Question) -> [u32; 8] {
    may_open_with(question, &[])
}

/// The eight numbers of the answer, where a table says the attributes.
pub fn may_open_with(question: &Question, table: &[u8]) -> [u32; 8] {
    match try_may_open_with(question, table) {
        Ok(verdict) => [0, 0, 0, u32::from(verdict.is_yes()), 0, 0, 0, 0],
        Err(refused) => refused.answer().eight(),
    }
}

pub fn try_may_open(question: &Question) -> Result<Verdict, Refused> {
    try_may_open_with(question, &[])
}

/// All that is refused comes before the easy yes.
pub fn try_may_open_with(question: &Question, table: &[u8]) -> Result<Verdict, Refused> {
    if question.wanted & GENERIC != 0 {
        return Err(Refused::GenericWanted);
    }
    let list = question.present_list().map(List::parse);
    let list = list.transpose().map_err(Refused::List)?;
    let held = held::at_most_32(&question.held)?;
    let table = Table::parse(table).map_err(Refused::Table)?;
    Ok(match list {
        None => Verdict::NoList,
        Some(_) if question.wanted == 0 => Verdict::NothingWanted,
        Some(list) => {
            let concerned = list.entries.iter().filter(|entry| {
                !is_inherit_only(entry)
                    && held.contains(&entry.sid)
                    && is_of_type(entry, &question.object_type)
                    && applies(entry, &table)
            });
            of_every_bit(&concerned.collect::<Vec<_>>(), question.wanted)
        }
    })
}

fn is_inherit_only(entry: &Entry) -> bool {
    entry.flags & INHERIT_ONLY != 0
}

/// Plain entries never have an ObjectType.
fn is_of_type(entry: &Entry, object_type: &Guid) -> bool {
    entry.object_type.is_none_or(|guid| guid == object_type)
}

fn of_every_bit(concerned: &[&Entry], wanted: u32) -> Verdict {
    for bit in (0..32).filter(|&bit| has_bit(wanted, bit)) {
        let speaking = concerned.iter().find(|entry| has_bit(entry.mask, bit));
        match speaking.map(|entry| entry.entry_type) {
            Some(entry_type) if entry_type.is_allow() => {}
            Some(_) => return Verdict::BitDenied,
            None => return Verdict::BitUnspoken,
        }
    }
    Verdict::EveryBitAllowed
}

fn has_bit(mask: u32, bit: u32) -> bool {
    mask >> bit & 1 == 1
}

#[cfg(test)]
mod tests;
