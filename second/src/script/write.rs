//! Calls on a tree as records of a script.

use crate::tree::{Add, Call, Change, NO_PARENT, traits};

/// Numbers of objects are cut to a byte. A list that is given has a byte at
/// least: none at all says that it is absent.
pub fn record(call: &Call) -> Vec<u8> {
    match call {
        Call::Change(Change::Add(add)) => of_add(add),
        Call::Change(change @ Change::SetList { object, .. }) => {
            let list = list(change.given_list().unwrap_or_default());
            [vec![2, *object as u8], list].concat()
        }
        Call::Change(Change::SetMark { object, mark }) => {
            vec![3, *object as u8, u8::from(*mark != 0)]
        }
        Call::Change(Change::SetOwner {
            object,
            owner,
            group,
        }) => [vec![4, *object as u8], identity(owner), identity(group)].concat(),
        Call::Undo => vec![5],
        _ => panic!("no record is for {}", call.name()),
    }
}

fn of_add(add: &Add) -> Vec<u8> {
    let parent = match add.parent {
        NO_PARENT => 0xFF,
        number => number as u8,
    };
    let kind = u8::from(add.has(traits::CONTAINER));
    let mark = u8::from(add.has(traits::PROTECTED));
    let given: &[u8] = if add.has(traits::OWN_LIST) {
        &add.list
    } else {
        &[]
    };
    [
        vec![1, parent, kind, mark],
        add.object_type.to_vec(),
        identity(&add.owner),
        identity(&add.group),
        list(given),
    ]
    .concat()
}

fn identity(bytes: &[u8]) -> Vec<u8> {
    let length = u8::try_from(bytes.len()).expect("a record holds at most 255 bytes of it");
    [&[length], bytes].concat()
}

fn list(bytes: &[u8]) -> Vec<u8> {
    let length = u16::try_from(bytes.len()).expect("a record's list has at most 65,535 bytes");
    [&length.to_le_bytes(), bytes].concat()
}
