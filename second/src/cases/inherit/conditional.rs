//! Conditional entries: inherited as types 00 and 01 are, the expression
//! unchanged behind whatever SID is put in.

use super::fault_orders::one_of_each_number;
use super::ways::{Way, bare, some_creator, some_parent};
use super::{BOTH_RULES, KINDS, all_fitting, result_length};
use crate::ace::LONGEST_LIST;
use crate::cases::build::{
    EntryPlan, MOST_NUMBERS, creator_sid, good_list, list_of_plans, nt_sid, with_spare,
};
use crate::cases::condition::bad_expressions;
use crate::cases::condition::fresh::Attributes;
use crate::cases::condition::make::{exists, exists_of, negated, some_expression, stored};
use crate::computing::{Request, setting};
use crate::list::HEADER_LENGTH;
use crate::random::Random;
use crate::records::{Case, LONGEST_ROOM};

const TYPES: [u8; 2] = [9, 10];
const STORED: usize = 80;

pub fn cases(random: &mut Random) -> Vec<Case> {
    let mut requests = every_flag();
    requests.extend(all_flags_at_once());
    requests.extend(owners_of_every_length());
    requests.extend(every_padding());
    requests.extend(revisions());
    requests.extend(masks());
    requests.extend(refused_lists());
    requests.extend(two_bad_lists());
    requests.extend((0..STORED).map(|_| random_one(random)));
    let mut cases = all_fitting(requests);
    cases.extend(rooms());
    cases.push(too_long());
    cases
}

/// 12 bytes, and one more for each not.
fn short_expression(nots: usize) -> Vec<u8> {
    stored(negated(exists("a"), nots))
}

fn plan(entry_type: u8, flags: u8, sid: Vec<u8>) -> EntryPlan {
    EntryPlan::conditional(entry_type, flags, sid, short_expression(0))
}

/// Each way in turn: in both kinds all the flags there are.
fn every_flag() -> Vec<Request> {
    let mut requests = Vec::new();
    for (turn, kind) in KINDS.into_iter().enumerate() {
        for flags in 0..32 {
            let place = usize::from(flags) + turn;
            let sid = [creator_sid(0), nt_sid(&[18]), creator_sid(1)][place % 3].clone();
            let list = good_list(&[plan(TYPES[place / 2 % 2], flags, sid)]);
            for way in [place, place + 3].map(|place| Way::ALL[place % Way::ALL.len()]) {
                requests.push(way.request(list.clone(), place).with(kind));
            }
        }
    }
    requests
}

/// The order of the result's entries is seen by their masks; plain entries
/// stand between.
fn all_flags_at_once() -> Vec<Request> {
    let plans: Vec<EntryPlan> = (0..32)
        .map(|flags| {
            let plain = EntryPlan {
                mask: flags.into(),
                ..EntryPlan::plain(flags >> 4, flags, nt_sid(&[]))
            };
            match flags % 3 {
                0 => plain,
                _ => plain.under(short_expression(0)),
            }
        })
        .collect();
    let list = good_list(&plans);
    let ways = [Way::ParentAlone, Way::OwnByRule2, Way::DefaultList];
    let in_both_kinds = |way: Way| KINDS.map(|kind| way.request(list.clone(), 0).with(kind));
    ways.into_iter().flat_map(in_both_kinds).collect()
}

fn owners_of_every_length() -> Vec<Request> {
    let mut requests = Vec::new();
    for numbers in 0..=MOST_NUMBERS {
        for which in [0, 1] {
            let entries = [
                plan(TYPES[numbers % 2], 0x03, creator_sid(which)),
                EntryPlan::plain(0, 0x03, creator_sid(which)),
            ];
            let way = Way::ALL[(numbers + which as usize) % Way::ALL.len()];
            let request = way.request(good_list(&entries), numbers);
            requests.push(Request {
                owner: nt_sid(&vec![5; numbers]),
                group: nt_sid(&vec![6; MOST_NUMBERS - numbers]),
                ..request
            });
        }
    }
    requests
}

/// Expressions with no zero to three behind them, one after the other.
fn every_padding() -> Vec<Request> {
    let plans: Vec<EntryPlan> = (0..4)
        .map(|nots| EntryPlan {
            expression: short_expression(nots),
            ..plan(TYPES[nots % 2], 0x03, creator_sid(nots as u32 % 3))
        })
        .collect();
    let ways = Way::ALL.into_iter().enumerate();
    ways.map(|(turn, way)| way.request(good_list(&plans), turn).with(KINDS[turn % 2]))
        .collect()
}

/// A list of revision 4 whose result has 2, and one with an object entry.
fn revisions() -> Vec<Request> {
    let conditional = plan(9, 0x03, creator_sid(0));
    let object = EntryPlan::object(6, 0x03, 1, creator_sid(0));
    let alone = list_of_plans(4, std::slice::from_ref(&conditional));
    let with_object = good_list(&[object, conditional]);
    let mut requests = Vec::new();
    for (turn, way) in Way::ALL.into_iter().enumerate() {
        for list in [&alone, &with_object] {
            requests.push(way.request(list.clone(), turn));
        }
    }
    requests
}

/// The 16 combinations of generic bits, by either rule.
fn masks() -> Vec<Request> {
    let plans = (0..16).map(|generic| EntryPlan {
        mask: generic << 28 | 0x10,
        ..plan(TYPES[generic as usize % 2], 0x03, nt_sid(&[]))
    });
    let list = good_list(&plans.collect::<Vec<_>>());
    let by_rule = |rule| bare().with_rule(rule).with_default(list.clone());
    BOTH_RULES.map(by_rule).to_vec()
}

/// In each of the three lists, also where the branch has no use for it.
fn refused_lists() -> Vec<Request> {
    let mut requests = Vec::new();
    for (turn, expression) in bad_expressions().into_iter().enumerate() {
        let good = plan(TYPES[turn % 2], 0x03, creator_sid(0));
        let bad = EntryPlan {
            expression,
            ..good.clone()
        };
        let list = good_list(&[good, bad]);
        let bare = bare().with_rule(BOTH_RULES[turn % 2]);
        requests.extend([
            bare.clone().with_parent(list.clone()),
            bare.clone()
                .with_parent(some_parent())
                .with_creator(list.clone()),
            bare.with_creator(some_creator()).with_default(list),
        ]);
    }
    requests
}

/// 15 in one of two lists and every number in the other; then 15 before 6, 7
/// and 8, and behind 12.
fn two_bad_lists() -> Vec<Request> {
    let bad = || {
        let plan = EntryPlan {
            expression: stored(Vec::new()),
            ..plan(10, 0x03, nt_sid(&[]))
        };
        good_list(&[plan])
    };
    let mut requests = Vec::new();
    for other in one_of_each_number() {
        for (first, later) in [(bad(), other.clone()), (other.clone(), bad())] {
            requests.push(
                bare()
                    .with_parent(first.clone())
                    .with_creator(later.clone()),
            );
            requests.push(bare().with_creator(first).with_default(later));
        }
    }
    let request = bare().with_parent(bad());
    let bad_owner = Request {
        owner: creator_sid(0),
        ..request.clone()
    };
    let bad_types = Request {
        types: vec![0; 15],
        ..request.clone()
    };
    requests.extend([bad_owner, bad_types, request.with_rule(3)]);
    requests
}

/// As the computation's own random ones, of which half the entries are under a
/// condition; at times with spare bytes.
fn random_one(random: &mut Random) -> Request {
    let attributes = Attributes::draw(random);
    let mut list = || {
        let plans: Vec<EntryPlan> = (0..1 + random.below(3))
            .map(|_| {
                let plan = EntryPlan::random(random, true);
                let which = random.below(3) as u32;
                match random.below(4) {
                    0 => plan,
                    _ => plan
                        .naming(creator_sid(which))
                        .under(attributes.unpadded(random)),
                }
            })
            .collect();
        let list = good_list(&plans);
        match random.below(4) {
            0 => with_spare(&list, &[0xA2; 3]),
            _ => list,
        }
    };
    let (parent, creator, default_list) = (list(), list(), list());
    let settings = random.word() & setting::ALL;
    Request {
        rule: 1 + random.below(2) as u32,
        settings,
        parent,
        creator,
        default_list,
        owner: nt_sid(&vec![9; random.below(4)]),
        ..bare()
    }
}

/// Exactly enough, one byte and one entry short.
fn rooms() -> Vec<Case> {
    let list = good_list(&[
        plan(9, 0x03, creator_sid(0)),
        EntryPlan::conditional(10, 0x03, creator_sid(1), some_expression()),
    ]);
    let mut cases = Vec::new();
    for way in [Way::ParentAlone, Way::OwnAlone, Way::DefaultList] {
        let request = way.request(list.clone(), 1).with(setting::CONTAINER);
        let length = result_length(&request).expect("nothing is refused");
        for room in [
            0,
            length - 40,
            length - 4,
            length - 1,
            length,
            length + 3,
            list.len(),
        ] {
            let request = request.clone();
            cases.push(Case::Compute { request, room });
        }
    }
    cases
}

/// One entry in the longest list: an owner of 68 bytes leaves its size no
/// place in 16 bits.
fn too_long() -> Case {
    let placeholder = EntryPlan::conditional(9, 0x03, creator_sid(0), Vec::new());
    let rest = HEADER_LENGTH + placeholder.size() + 4 + 5 + 1;
    let name = vec![0x61; LONGEST_LIST - rest];
    let plan = EntryPlan {
        expression: stored(exists_of(&name)),
        ..placeholder
    };
    let request = Request {
        owner: nt_sid(&[5; MOST_NUMBERS]),
        ..bare().with_default(good_list(&[plan]))
    };
    assert_eq!(request.default_list.len(), LONGEST_LIST);
    Case::Compute {
        request,
        room: LONGEST_ROOM,
    }
}
