//! Lists with spare bytes: the result is that of the same lists without.

use super::large::entries_of;
use super::ways::{Way, bare, some_creator, some_default, some_parent};
use super::{BOTH_RULES, KINDS, all_fitting, fitting, fresh, result_length};
use crate::ace::LONGEST_LIST;
use crate::cases::build::{
    EntryPlan, creator_sid, good_list, hiding_some, list_of, nt_sid, random_spare, with_count,
    with_spare,
};
use crate::cases::spoil::{one_of_each, spoilt};
use crate::computing::{Request, setting};
use crate::list::HEADER_LENGTH;
use crate::random::Random;
use crate::records::{Case, LONGEST_ROOM};

const STORED: usize = 80;
const MOST_ENTRIES: usize = 4;
/// As inputs; 65,532 limits results alone.
const LONGEST_INPUT: usize = 65_535;

pub fn cases(random: &mut Random) -> Vec<Case> {
    let mut requests = one_list_at_a_time();
    requests.extend(all_three(random));
    requests.extend(hidden_entries());
    requests.extend(bad_entries());
    let mut cases = all_fitting(requests);
    cases.extend(rooms());
    cases.extend(random_ones(random));
    cases.extend(long());
    cases
}

/// An entry that would be inherited by every object, and be anyone's own.
fn reaching() -> EntryPlan {
    EntryPlan::plain(1, 0x03, creator_sid(0))
}

/// One byte, a good entry, a bad one, no sense at all.
fn tails() -> [Vec<u8>; 5] {
    let bad = spoilt(&reaching(), &[one_of_each(&reaching())[1]]);
    [
        vec![0],
        vec![0xFF; 7],
        reaching().bytes(),
        bad,
        reaching().bytes().repeat(5),
    ]
}

/// In every way in which a list reaches the result; the same without comes
/// first.
fn one_list_at_a_time() -> Vec<Request> {
    let plans = [
        EntryPlan::plain(0, 0x0B, creator_sid(1)),
        EntryPlan::plain(0, 0x00, nt_sid(&[9])),
        EntryPlan::object(5, 0x02, 2, nt_sid(&[8])),
    ];
    let lists = [good_list(&plans), good_list(&plans[..1]), good_list(&[])];
    let mut requests = Vec::new();
    for way in Way::ALL {
        for (turn, list) in lists.iter().enumerate() {
            let kind = KINDS[turn % 2];
            requests.push(way.request(list.clone(), turn).with(kind));
            for tail in tails() {
                let roomy = with_spare(list, &tail);
                requests.push(way.request(roomy, turn).with(kind));
            }
        }
    }
    requests
}

/// By all settings, and the rules in turn.
fn all_three(random: &mut Random) -> Vec<Request> {
    let mut requests = Vec::new();
    for settings in 0..=setting::ALL {
        let mut roomy = |list: Vec<u8>| {
            let length = random.below(24);
            with_spare(&list, &random_spare(random, length))
        };
        let turn = settings.count_ones() as usize;
        requests.push(Request {
            rule: BOTH_RULES[turn % 2],
            settings,
            parent: roomy(some_parent()),
            creator: roomy(some_creator()),
            default_list: roomy(some_default()),
            ..bare()
        });
    }
    requests
}

/// A count of 0, and one that hides the entry that would be inherited or be
/// the own one.
fn hidden_entries() -> Vec<Request> {
    let plain = EntryPlan::plain(0, 0x00, nt_sid(&[5]));
    let all_hidden = with_count(&good_list(&[reaching()]), 0);
    let last_hidden = with_count(&good_list(&[plain.clone(), reaching()]), 1);
    let first_shown = with_count(&good_list(&[reaching(), plain]), 1);
    let mut requests = Vec::new();
    for rule in BOTH_RULES {
        for kind in KINDS {
            let bare = bare().with_rule(rule).with(kind | setting::AUTO_INHERIT);
            for list in [&all_hidden, &last_hidden, &first_shown] {
                let below = bare.clone().with_parent(list.clone());
                let created = below.clone().with_creator(some_creator());
                let beside = bare.clone().with_parent(some_parent());
                requests.extend([
                    below.clone(),
                    below.with_default(some_default()),
                    created.clone(),
                    created.with(setting::DEFAULT_DESCRIPTOR),
                    bare.clone().with_creator(list.clone()),
                    beside.with_creator(list.clone()),
                    bare.clone().with_default(list.clone()),
                ]);
            }
        }
    }
    requests
}

/// Each of the three, refused before its spare bytes are reached.
fn bad_entries() -> Vec<Request> {
    let mut requests = Vec::new();
    for (turn, spoil) in one_of_each(&reaching()).into_iter().enumerate() {
        let entries = [reaching().bytes(), spoilt(&reaching(), &[spoil])];
        let bad = with_spare(&list_of(4, &entries), &[0; 30]);
        let bare = bare().with_rule(BOTH_RULES[turn % 2]);
        requests.extend([
            bare.clone().with_parent(bad.clone()),
            bare.clone().with_creator(bad.clone()),
            bare.with_default(bad),
        ]);
    }
    requests
}

/// The result's own length is enough, however long the list was.
fn rooms() -> Vec<Case> {
    let mut cases = Vec::new();
    for way in [Way::ParentAlone, Way::OwnAlone, Way::DefaultList] {
        let list = with_spare(&good_list(&[reaching()]), &[0; 60]);
        let whole = list.len();
        let request = way.request(list, 1);
        let length = result_length(&request).expect("the list is good");
        cases.extend([0, 8, length - 1, length, length + 1, whole].map(|room| {
            let request = request.clone();
            Case::Compute { request, room }
        }));
    }
    cases
}

fn random_ones(random: &mut Random) -> Vec<Case> {
    (0..STORED)
        .map(|_| {
            let request = fresh::request(random, MOST_ENTRIES);
            let request = roomy(random, request, |random, _| 1 + random.below(40));
            let more = random.below(6);
            fitting(request, more)
        })
        .collect()
}

/// Spare bytes in one of its lists or in more, so many as `length` says of what
/// is left up to the longest list, or entries that a smaller count hides.
pub fn roomy(
    random: &mut Random,
    mut request: Request,
    length: impl Fn(&mut Random, usize) -> usize,
) -> Request {
    let always = random.below(3);
    let lists = [
        &mut request.parent,
        &mut request.creator,
        &mut request.default_list,
    ];
    for (place, list) in lists.into_iter().enumerate() {
        if list.len() < HEADER_LENGTH || place != always && random.chance(1, 2) {
            continue;
        }
        if random.chance(1, 4) {
            *list = hiding_some(random, list);
        } else {
            let left = LONGEST_INPUT.saturating_sub(list.len());
            let length = length(random, left).min(left);
            *list = with_spare(list, &random_spare(random, length));
        }
    }
    request
}

/// Few, since they are large: one of them with the longest result.
fn long() -> Vec<Case> {
    let filled_up = |list: Vec<u8>, length: usize| {
        let spare = length - list.len();
        let entries = reaching().bytes().into_iter().cycle();
        with_spare(&list, &entries.take(spare).collect::<Vec<u8>>())
    };
    let in_room = |request: Request, room: usize| Case::Compute { request, room };
    let longest = good_list(&entries_of(0x00, LONGEST_LIST - HEADER_LENGTH));
    let parent = filled_up(some_parent(), LONGEST_INPUT);
    let creator = filled_up(some_creator(), LONGEST_INPUT - 1);
    vec![
        in_room(
            bare().with_default(filled_up(longest, LONGEST_INPUT - 2)),
            LONGEST_ROOM,
        ),
        in_room(bare().with_parent(parent).with(setting::CONTAINER), 90),
        in_room(bare().with_creator(creator).with_rule(1), 90),
        in_room(bare().with_parent(filled_up(some_parent(), 2_000)), 90),
    ]
}
