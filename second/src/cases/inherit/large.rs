//! Results just under, at and over 65,532 bytes. Few, since they are large.

use super::ways::{bare, some_parent};
use crate::ace::LONGEST_LIST;
use crate::cases::build::{EntryPlan, MOST_NUMBERS, creator_sid, good_list, nt_sid};
use crate::computing::{Request, setting};
use crate::list::HEADER_LENGTH;
use crate::records::{Case, LONGEST_ROOM};

pub fn cases() -> Vec<Case> {
    let in_room = |request: Request, room: usize| Case::Compute { request, room };
    vec![
        in_room(growing_to(LONGEST_LIST - 4), LONGEST_ROOM),
        in_room(growing_to(LONGEST_LIST), LONGEST_LIST),
        in_room(growing_to(LONGEST_LIST), LONGEST_LIST - 1),
        in_room(growing_to(LONGEST_LIST + 4), LONGEST_ROOM),
        // A length cut to 16 bits would fit.
        in_room(growing_to(LONGEST_LIST + 72), 1_200),
        in_room(
            bare().with_default(longest_with(creator_sid(0))),
            LONGEST_ROOM,
        ),
        in_room(
            bare().with_creator(longest_with(creator_sid(1))),
            LONGEST_ROOM,
        ),
        in_room(dropped_by_rule_1(), 1_200),
    ]
}

/// Entries with these flags that are `bytes` long together, each at most 76.
pub fn entries_of(flags: u8, bytes: usize) -> Vec<EntryPlan> {
    const LONGEST_PLAIN: usize = 76;
    let count = bytes.div_ceil(LONGEST_PLAIN);
    let quarters = bytes / 4;
    (0..count)
        .map(|place| {
            let longer = usize::from(place < quarters % count);
            let numbers = quarters / count + longer - 4;
            EntryPlan::plain(1, flags, nt_sid(&vec![7; numbers]))
        })
        .collect()
}

/// Placeholders that become owners of 68 bytes, each twice in the result, and
/// a few entries that come once.
fn growing_to(length: usize) -> Request {
    const PLACEHOLDERS: usize = 430;
    const GROWN: usize = 2 * (8 + 68);
    const ONCE: u8 = 0x06;
    let mut plans = vec![EntryPlan::plain(0, 0x03, creator_sid(0)); PLACEHOLDERS];
    plans.extend(entries_of(
        ONCE,
        length - HEADER_LENGTH - PLACEHOLDERS * GROWN,
    ));
    Request {
        owner: nt_sid(&[5; MOST_NUMBERS]),
        ..bare()
    }
    .with_parent(good_list(&plans))
    .with(setting::CONTAINER)
}

/// The longest list: an owner put in makes it too long, a group shorter.
fn longest_with(sid: Vec<u8>) -> Vec<u8> {
    let placeholder = EntryPlan::plain(0, 0x03, sid);
    let mut plans = entries_of(0, LONGEST_LIST - HEADER_LENGTH - placeholder.size());
    plans.insert(1, placeholder);
    let list = good_list(&plans);
    assert_eq!(list.len(), LONGEST_LIST);
    list
}

/// What the creator's entries would make is over 65,532 bytes, and none of it
/// passes the filter.
fn dropped_by_rule_1() -> Request {
    let plans = vec![EntryPlan::plain(0, 0x03, nt_sid(&[18])); 1_640];
    bare()
        .with_rule(1)
        .with_parent(some_parent())
        .with_creator(good_list(&plans))
        .with(setting::CONTAINER | setting::AUTO_INHERIT)
}
