//! Whether a conditional entry applies, by MS-DTYP 2.4.4.17.3.

use crate::condition::{Table, Truth};
use crate::list::{Entry, EntryType, List};

/// A false condition passes the entry over and a true one applies; an unknown
/// one grants nothing, but denies. An entry without a condition applies.
pub fn applies(entry: &Entry, table: &Table) -> bool {
    match truth(entry, table) {
        None | Some(Truth::True) => true,
        Some(Truth::False) => false,
        Some(Truth::Unknown) => !entry.entry_type.is_allow(),
    }
}

/// `None` where the entry has no condition.
fn truth(entry: &Entry, table: &Table) -> Option<Truth> {
    let condition = entry.condition.as_ref();
    condition.map(|condition| condition.truth(table))
}

/// What the conditions of a good list come to, by a good table.
pub fn truths(list: &[u8], table: &[u8]) -> Vec<(EntryType, Truth)> {
    let (Ok(list), Ok(table)) = (List::parse(list), Table::parse(table)) else {
        return Vec::new();
    };
    let entries = list.entries.iter();
    entries
        .filter_map(|entry| Some((entry.entry_type, truth(entry, &table)?)))
        .collect()
}
