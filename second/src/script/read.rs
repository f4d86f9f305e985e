//! Records as they stand in a script. Their form is tested here, their
//! meaning by the tree.

use crate::tree::{Add, Call, Change, NO_PARENT, traits};

/// Why the run ends before the script does.
#[derive(Clone, Copy, Debug, PartialEq, Eq)]
pub enum Bad {
    Head,
    Unknown,
    Cut,
    /// A kind or a mark.
    AboveOne,
}

impl Bad {
    pub fn name(self) -> &'static str {
        match self {
            Bad::Head => "bad at: head",
            Bad::Unknown => "bad at: unknown record",
            Bad::Cut => "bad at: cut record",
            Bad::AboveOne => "bad at: kind or mark above 1",
        }
    }
}

struct Fields<'a>(&'a [u8]);

impl Fields<'_> {
    fn array<const N: usize>(&mut self) -> Result<[u8; N], Bad> {
        let (front, rest) = self.0.split_first_chunk().ok_or(Bad::Cut)?;
        self.0 = rest;
        Ok(*front)
    }

    fn byte(&mut self) -> Result<u8, Bad> {
        let [byte] = self.array()?;
        Ok(byte)
    }

    fn object(&mut self) -> Result<u32, Bad> {
        self.byte().map(u32::from)
    }

    fn parent(&mut self) -> Result<u32, Bad> {
        Ok(match self.byte()? {
            0xFF => NO_PARENT,
            number => number.into(),
        })
    }

    /// A kind or a mark.
    fn yes_or_no(&mut self) -> Result<bool, Bad> {
        match self.byte()? {
            0 => Ok(false),
            1 => Ok(true),
            _ => Err(Bad::AboveOne),
        }
    }

    fn bytes(&mut self, length: usize) -> Result<Vec<u8>, Bad> {
        let (bytes, rest) = self.0.split_at_checked(length).ok_or(Bad::Cut)?;
        self.0 = rest;
        Ok(bytes.to_vec())
    }

    fn identity(&mut self) -> Result<Vec<u8>, Bad> {
        let length = self.byte()?;
        self.bytes(length.into())
    }

    /// Length 0 says that there is none.
    fn list(&mut self) -> Result<Vec<u8>, Bad> {
        let length = u16::from_le_bytes(self.array()?);
        self.bytes(length.into())
    }

    fn add(&mut self) -> Result<Add, Bad> {
        let parent = self.parent()?;
        let container = self.yes_or_no()?;
        let protected = self.yes_or_no()?;
        let add = Add {
            parent,
            traits: 0,
            object_type: self.array()?,
            owner: self.identity()?,
            group: self.identity()?,
            list: self.list()?,
        };
        let chosen = [
            (traits::CONTAINER, container),
            (traits::PROTECTED, protected),
            (traits::OWN_LIST, !add.list.is_empty()),
        ];
        let chosen = chosen.into_iter().filter(|&(_, yes)| yes);
        Ok(Add {
            traits: chosen.map(|(bit, _)| bit).sum(),
            ..add
        })
    }

    fn set_list(&mut self) -> Result<Change, Bad> {
        let object = self.object()?;
        let list = self.list()?;
        Ok(Change::SetList {
            object,
            has_list: u32::from(!list.is_empty()),
            list,
        })
    }
}

/// The record that begins here, and what comes behind it.
pub fn record(rest: &[u8]) -> Result<(Call, &[u8]), Bad> {
    let mut fields = Fields(rest);
    let call = match fields.byte()? {
        1 => Call::Change(Change::Add(fields.add()?)),
        2 => Call::Change(fields.set_list()?),
        3 => Call::Change(Change::SetMark {
            object: fields.object()?,
            mark: fields.yes_or_no()?.into(),
        }),
        4 => Call::Change(Change::SetOwner {
            object: fields.object()?,
            owner: fields.identity()?,
            group: fields.identity()?,
        }),
        5 => Call::Undo,
        _ => return Err(Bad::Unknown),
    };
    Ok((call, fields.0))
}
