//! A lent table: records to its end, each a 16-bit length, a name and a
//! signed number of 64 bits.

use super::token::is_name_length;
use std::collections::BTreeMap;

pub const MOST_NAMES: usize = 32;

/// Why a table isn't so made: all of it is number 23.
#[derive(Clone, Copy, Debug, PartialEq, Eq)]
pub enum BadTable {
    Cut,
    NameLength,
    Twice,
    TooMany,
}

impl BadTable {
    pub const ALL: [BadTable; 4] = [
        BadTable::Cut,
        BadTable::NameLength,
        BadTable::Twice,
        BadTable::TooMany,
    ];

    pub fn name(self) -> &'static str {
        match self {
            BadTable::Cut => "table: a record is cut",
            BadTable::NameLength => "table: length of a name",
            BadTable::Twice => "table: a name twice",
            BadTable::TooMany => "table: over 32 names",
        }
    }
}

#[derive(Clone, Debug, Default, PartialEq, Eq)]
pub struct Table<'a> {
    /// Names are compared as bytes.
    values: BTreeMap<&'a [u8], i64>,
}

impl<'a> Table<'a> {
    pub fn parse(mut bytes: &'a [u8]) -> Result<Table<'a>, BadTable> {
        let mut table = Table::default();
        while !bytes.is_empty() {
            let (name, value, behind) = cut_record(bytes)?;
            if table.values.insert(name, value).is_some() {
                return Err(BadTable::Twice);
            }
            if table.values.len() > MOST_NAMES {
                return Err(BadTable::TooMany);
            }
            bytes = behind;
        }
        Ok(table)
    }

    /// How many.
    pub fn names(&self) -> usize {
        self.values.len()
    }

    pub fn value(&self, name: &[u8]) -> Option<i64> {
        self.values.get(name).copied()
    }
}

fn cut_record(bytes: &[u8]) -> Result<(&[u8], i64, &[u8]), BadTable> {
    let (length, rest) = bytes.split_first_chunk().ok_or(BadTable::Cut)?;
    let length = u16::from_le_bytes(*length);
    if !is_name_length(length.into()) {
        return Err(BadTable::NameLength);
    }
    let (name, rest) = rest.split_at_checked(length.into()).ok_or(BadTable::Cut)?;
    let (value, rest) = rest.split_first_chunk().ok_or(BadTable::Cut)?;
    Ok((name, i64::from_le_bytes(*value), rest))
}
