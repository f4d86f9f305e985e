//! The computations that document 01 works by hand, K1 to K12.

use super::{fitting, ways};
use crate::cases::build::{EntryPlan, creator_sid, good_list, nt_sid};
use crate::computing::{Request, setting};
use crate::records::Case;

const GENERIC_READ: u32 = 0x8000_0000;

/// Owner and group are S-1-5-18.
fn base() -> Request {
    Request {
        owner: nt_sid(&[18]),
        group: nt_sid(&[18]),
        ..ways::bare()
    }
}

/// Document 01's parent, whose one entry has flags 03, or other flags.
fn parent(flags: u8) -> Vec<u8> {
    good_list(&[EntryPlan {
        mask: GENERIC_READ,
        ..EntryPlan::plain(0, flags, creator_sid(0))
    }])
}

fn container_below(parent_flags: u8) -> Request {
    base()
        .with_parent(parent(parent_flags))
        .with(setting::CONTAINER)
}

pub fn k1() -> Request {
    container_below(0x03)
}

pub fn k2() -> Request {
    base().with_parent(parent(0x03))
}

pub fn k3() -> Request {
    container_below(0x07)
}

pub fn k4() -> Request {
    container_below(0x01)
}

pub fn k5() -> Request {
    container_below(0x0B)
}

pub fn k6() -> Request {
    base().with_parent(parent(0x00))
}

pub fn k7() -> Request {
    k8().with_rule(1)
}

pub fn k8() -> Request {
    beside_creator().with(setting::PROTECTED)
}

pub fn k9() -> Request {
    beside_creator().with(setting::AUTO_INHERIT)
}

fn beside_creator() -> Request {
    let plain = EntryPlan {
        mask: 1,
        ..EntryPlan::plain(0, 0, nt_sid(&[18]))
    };
    k1().with_creator(good_list(&[plain]))
}

pub fn k10() -> Request {
    k1().with(setting::PROTECTED)
}

pub fn k11() -> Request {
    Request {
        owner: creator_sid(0),
        ..k1()
    }
}

/// K12 is this in rooms of 47 and 48 bytes.
pub fn k12() -> Request {
    k1()
}

/// By rule 2, or the rule named; then by rule 1 where either rule holds.
pub fn cases() -> Vec<Case> {
    let named = [k7(), k8(), k9()];
    let before = [k1(), k2(), k3(), k4(), k5(), k6()];
    let after = [k10(), k11()];
    let either: Vec<Request> = [&before[..], &after[..]].concat();
    let by_rule_1 = either.into_iter().map(|request| request.with_rule(1));

    let mut cases = Vec::new();
    let in_order = before.into_iter().chain(named).chain(after);
    cases.extend(in_order.map(|request| fitting(request, 4)));
    cases.extend(rooms_of_k12(2));
    cases.extend(by_rule_1.map(|request| fitting(request, 4)));
    cases.extend(rooms_of_k12(1));
    cases
}

fn rooms_of_k12(rule: u32) -> [Case; 2] {
    [47, 48].map(|room| Case::Compute {
        request: k12().with_rule(rule),
        room,
    })
}
