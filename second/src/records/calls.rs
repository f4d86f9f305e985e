//! Records of a tree's calls. They are read strictly forward:
//!
//! - one byte says which call it is;
//! - then come the call's numbers, little-endian, of 32 bits but for the
//!   length of `out`, which has 16;
//! - then its byte strings, each as its length in 16 bits and its bytes.
//!
//! | byte | call      | numbers, and the 16 bytes of a GUID            | strings            |
//! |------|-----------|------------------------------------------------|--------------------|
//! | 4    | start     | room length, objects, steps, rule,             | default list       |
//! |      |           | mapping (4 numbers), has default               |                    |
//! | 5    | add       | parent, traits, GUID                           | owner, group, list |
//! | 6    | set list  | object, has list                               | list               |
//! | 7    | set mark  | object, mark                                   |                    |
//! | 8    | set owner | object                                         | owner, group       |
//! | 9    | undo      |                                                |                    |
//! | 10   | list      | object, out length (16 bits)                   |                    |
//! | 11   | own       | object, out length (16 bits)                   |                    |
//! | 12   | data      | object, out length (16 bits)                   |                    |
//! | 13   | counts    |                                                |                    |
//! | 14   | room      | objects, steps                                 |                    |
//!
//! A room length is at most 220,000, an out length at most 1,100; a list has
//! at most 4,096 bytes, an owner or a group at most 200.
//!
//! All calls work on one buffer of 220,000 bytes, at first zeros. A start is
//! lent as much of its front as its room length says. Every other call is
//! lent as much as the latest start that was done, and none before there was
//! one. Before a call that reads back, every byte of `out` is AA.
//!
//! Each call is answered by a line, closed by a newline: the call's byte and
//! the answer's eight numbers, decimal, each after one space; for a call that
//! reads back, after another space, eight small hex digits: the FNV-1a hash of
//! 32 bits over the whole of `out` afterwards (from 811C9DC5 on, for each byte
//! exclusive or, then times 01000193, cut to 32 bits). For `room` it is the
//! byte and the length.

use super::{Case, spaced};
use crate::tree::{Add, Call, Change, Outcome, Part, Start};

const START: u8 = 4;
const ADD: u8 = 5;
const SET_LIST: u8 = 6;
const SET_MARK: u8 = 7;
const SET_OWNER: u8 = 8;
const UNDO: u8 = 9;
const LIST: u8 = 10;
const OWN: u8 = 11;
const DATA: u8 = 12;
const COUNTS: u8 = 13;
const ROOM: u8 = 14;

pub const KINDS: std::ops::RangeInclusive<u8> = START..=ROOM;

const LONGEST_ROOM: u32 = 220_000;
pub const LONGEST_OUT: u16 = 1_100;
pub const LONGEST_LIST: usize = 4_096;
/// Of owner and group.
pub const LONGEST_SID: usize = 200;

fn kind(call: &Call) -> u8 {
    match call {
        Call::Start { .. } => START,
        Call::Change(Change::Add(_)) => ADD,
        Call::Change(Change::SetList { .. }) => SET_LIST,
        Call::Change(Change::SetMark { .. }) => SET_MARK,
        Call::Change(Change::SetOwner { .. }) => SET_OWNER,
        Call::Undo => UNDO,
        Call::Read { part, .. } => match part {
            Part::List => LIST,
            Part::Own => OWN,
            Part::Data => DATA,
        },
        Call::Counts => COUNTS,
        Call::Room { .. } => ROOM,
    }
}

pub fn encode(call: &Call, out: &mut Vec<u8>) {
    out.push(kind(call));
    let mut numbers = |numbers: &[u32]| {
        out.extend(numbers.iter().flat_map(|number| number.to_le_bytes()));
    };
    match call {
        Call::Start { room_length, start } => {
            numbers(&[*room_length, start.objects, start.steps, start.rule]);
            numbers(&start.mapping);
            numbers(&[start.has_default]);
            string(&start.default_list, out);
        }
        Call::Change(Change::Add(add)) => {
            numbers(&[add.parent, add.traits]);
            out.extend(add.object_type);
            string(&add.owner, out);
            string(&add.group, out);
            string(&add.list, out);
        }
        Call::Change(Change::SetList {
            object,
            has_list,
            list,
        }) => {
            numbers(&[*object, *has_list]);
            string(list, out);
        }
        Call::Change(Change::SetMark { object, mark }) => numbers(&[*object, *mark]),
        Call::Change(Change::SetOwner {
            object,
            owner,
            group,
        }) => {
            numbers(&[*object]);
            string(owner, out);
            string(group, out);
        }
        Call::Undo | Call::Counts => {}
        Call::Read {
            object, out_length, ..
        } => {
            numbers(&[*object]);
            out.extend(out_length.to_le_bytes());
        }
        Call::Room { objects, steps } => numbers(&[*objects, *steps]),
    }
}

fn string(bytes: &[u8], out: &mut Vec<u8>) {
    let length = u16::try_from(bytes.len()).expect("strings of records are short");
    out.extend(length.to_le_bytes());
    out.extend(bytes);
}

struct Cursor<'a>(&'a [u8]);

impl Cursor<'_> {
    fn array<const N: usize>(&mut self) -> Result<[u8; N], &'static str> {
        let (front, rest) = self.0.split_first_chunk().ok_or("cut call")?;
        self.0 = rest;
        Ok(*front)
    }

    fn number(&mut self) -> Result<u32, &'static str> {
        self.array().map(u32::from_le_bytes)
    }

    fn short(&mut self) -> Result<u16, &'static str> {
        self.array().map(u16::from_le_bytes)
    }

    fn string(&mut self, most: usize) -> Result<Vec<u8>, &'static str> {
        let length = usize::from(self.short()?);
        if length > most {
            return Err("a string is too long");
        }
        let (string, rest) = self.0.split_at_checked(length).ok_or("cut string")?;
        self.0 = rest;
        Ok(string.to_vec())
    }

    fn list(&mut self) -> Result<Vec<u8>, &'static str> {
        self.string(LONGEST_LIST)
    }

    fn sid(&mut self) -> Result<Vec<u8>, &'static str> {
        self.string(LONGEST_SID)
    }

    fn read(&mut self, part: Part) -> Result<Call, &'static str> {
        let object = self.number()?;
        let out_length = self.short()?;
        if out_length > LONGEST_OUT {
            return Err("out is too long");
        }
        Ok(Call::Read {
            part,
            object,
            out_length,
        })
    }

    fn start(&mut self) -> Result<Call, &'static str> {
        let room_length = self.number()?;
        if room_length > LONGEST_ROOM {
            return Err("the room is too long");
        }
        let (objects, steps, rule) = (self.number()?, self.number()?, self.number()?);
        let mut mapping = [0; 4];
        for mask in &mut mapping {
            *mask = self.number()?;
        }
        let start = Start {
            objects,
            steps,
            rule,
            mapping,
            has_default: self.number()?,
            default_list: self.list()?,
        };
        Ok(Call::Start { room_length, start })
    }
}

/// The first byte is known to be one of the kinds.
pub fn decode(file: &[u8]) -> Result<(Case, &[u8]), &'static str> {
    let mut cursor = Cursor(file);
    let [kind] = cursor.array()?;
    let call = match kind {
        START => cursor.start()?,
        ADD => Call::Change(Change::Add(Add {
            parent: cursor.number()?,
            traits: cursor.number()?,
            object_type: cursor.array()?,
            owner: cursor.sid()?,
            group: cursor.sid()?,
            list: cursor.list()?,
        })),
        SET_LIST => Call::Change(Change::SetList {
            object: cursor.number()?,
            has_list: cursor.number()?,
            list: cursor.list()?,
        }),
        SET_MARK => Call::Change(Change::SetMark {
            object: cursor.number()?,
            mark: cursor.number()?,
        }),
        SET_OWNER => Call::Change(Change::SetOwner {
            object: cursor.number()?,
            owner: cursor.sid()?,
            group: cursor.sid()?,
        }),
        UNDO => Call::Undo,
        LIST => cursor.read(Part::List)?,
        OWN => cursor.read(Part::Own)?,
        DATA => cursor.read(Part::Data)?,
        COUNTS => Call::Counts,
        ROOM => Call::Room {
            objects: cursor.number()?,
            steps: cursor.number()?,
        },
        _ => return Err("unknown call"),
    };
    Ok((Case::Tree(call), cursor.0))
}

pub fn line(call: &Call, outcome: &Outcome) -> String {
    let kind = kind(call);
    let numbers = || spaced(outcome.eight().into_iter().flatten());
    match outcome {
        Outcome::Length(length) => format!("{kind} {length}"),
        Outcome::Answer(_) => format!("{kind} {}", numbers()),
        Outcome::ReadBack(_, out) => format!("{kind} {} {:08x}", numbers(), fnv_1a(out)),
    }
}

pub fn fnv_1a(bytes: &[u8]) -> u32 {
    bytes.iter().fold(0x811C_9DC5, |hash, &byte| {
        (hash ^ u32::from(byte)).wrapping_mul(0x0100_0193)
    })
}

#[cfg(test)]
mod tests;
