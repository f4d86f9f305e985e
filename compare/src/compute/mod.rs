//! Computing a new object's list.

mod conditional;
mod generate;
mod lent;
mod masks;
mod opened;
mod share;
mod spare;

use std::ops::Range;

use crate::capi::lending::Lending;
use crate::capi::{self, WhenEmpty};
use crate::floors;
use crate::mended;
use crate::report::Report;
use generate::Case as Fresh;
use opened::Lists;
use second::computing::{self, Refused, Request};
use second::hex;
use second::random::Random;
use second::records::{Case, encode_all};

/// Bytes before and after the room that nobody may touch.
const MARGIN: usize = 16;
/// Lists that are longer together are told by their lengths.
const LONGEST_TOLD: usize = 4_000;
/// How often someone wants to open what was computed by rule 2, where a mask of
/// it hangs on 10000000 and where none does.
const OPENED_ONE_IN: usize = 2;
const OTHERS_ONE_IN: usize = 16;

pub fn compare(cases: usize, seed: u64) -> Report {
    let mut random = Random::new(seed);
    let mut report = Report::new("compute", &floors::COMPUTE);
    for _ in 0..cases {
        let fresh = generate::case(&mut random);
        compare_one(&mut random, &mut report, &fresh);
    }
    report
}

fn compare_one(random: &mut Random, report: &mut Report, fresh: &Fresh) {
    let (request, room) = (&fresh.request, fresh.room);
    let before = random.bytes(room + 2 * MARGIN);
    let inside = MARGIN..MARGIN + room;

    let mut our_room = before.clone();
    let outcome = computing::try_compute(request, &mut our_room[inside.clone()]);
    let mut without_all = None;
    let ours = match outcome {
        Ok(done) => {
            report.add_branch(done.branch.name());
            let list = &our_room[inside.clone()][..done.answer.length as usize];
            without_all = masks::count(report, request, done.branch, list);
            conditional::count(report, request, list);
            done.answer.eight()
        }
        Err(refused) => {
            match refused {
                Refused::Room => report.add_branch("over the lent length"),
                Refused::TooLong => report.add_branch("over 65,532 bytes"),
                _ => {}
            }
            refused.answer().eight()
        }
    };

    let lent = request.clone();
    let mut their_room = before;
    let mut theirs = [0; 8].map(|_: u32| random.word());
    let lending = lent::lending(random, &lent, fresh.together);
    lent::count_shared(report, &lending, &lent);
    let without = spare::without(request);
    if without.is_some() {
        spare::count(report, request, ours[0]);
    }
    let again = without.map(|without| Asked::apart(random, &without, &their_room, &inside));
    capi::compute(
        &lent,
        &mut their_room[inside.clone()],
        &mut theirs,
        &lending,
    );

    let difference = if theirs != ours {
        Some(format!("{theirs:?}, second {ours:?}"))
    } else if their_room != our_room {
        Some(room_difference(&their_room, &our_room))
    } else if lent != *request || !lending.is_unchanged() {
        Some("an input was changed".to_string())
    } else if again.is_some_and(|again| again.answer != theirs || again.room != their_room) {
        Some("without spare bytes the library tells otherwise".to_string())
    } else if ours[4] == 1 && request.rule == mended::RULE {
        let length = ours[3] as usize;
        let lists = Lists {
            theirs: &their_room[inside.clone()][..length],
            ours: &our_room[inside][..length],
            without: without_all.as_deref(),
        };
        by_rule_2(random, report, request, &lists)
    } else {
        None
    };
    let told = difference.map(|what| format!("compute {}: {what}", told(request, room)));
    if (1..=3).contains(&ours[1]) {
        let list = ["parent", "creator", "default"][ours[1] as usize - 1];
        report.add_call(list, ours[0]);
    }
    report.add("compute", ours[0], told);
}

/// What holds of such a list, and who may open it.
fn by_rule_2(
    random: &mut Random,
    report: &mut Report,
    request: &Request,
    lists: &Lists,
) -> Option<String> {
    if let Err(left) = mended::check(report, [lists.theirs]) {
        return Some(left);
    }
    let one_in = match lists.without {
        Some(_) => OPENED_ONE_IN,
        None => OTHERS_ONE_IN,
    };
    if random.chance(1, one_in) {
        return opened::compare(random, report, request, lists);
    }
    None
}

/// What the library makes of a request in a room that begins as given.
struct Asked {
    answer: [u32; 8],
    room: Vec<u8>,
}

impl Asked {
    fn apart(
        random: &mut Random,
        request: &Request,
        before: &[u8],
        inside: &Range<usize>,
    ) -> Asked {
        let mut asked = Asked {
            answer: [0; 8].map(|_: u32| random.word()),
            room: before.to_vec(),
        };
        let lending = Lending::apart(WhenEmpty::draw(random));
        let room = &mut asked.room[inside.clone()];
        capi::compute(request, room, &mut asked.answer, &lending);
        asked
    }
}

/// Names the first byte that differs; those of the margin are outside.
fn room_difference(theirs: &[u8], ours: &[u8]) -> String {
    let at = theirs.iter().zip(ours).take_while(|(a, b)| a == b).count();
    let place = at as isize - MARGIN as isize;
    format!("room byte {place} is {}, second {}", theirs[at], ours[at])
}

/// The case as a record of the case file, so that it can be tried again; a
/// long one by its lengths.
fn told(request: &Request, room: usize) -> String {
    let lists = [&request.parent, &request.creator, &request.default_list];
    let lengths = lists.map(Vec::len);
    if lengths.iter().sum::<usize>() > LONGEST_TOLD {
        let Request { rule, settings, .. } = request;
        return format!("rule {rule} settings {settings} room {room} lists of {lengths:?} bytes");
    }
    let request = request.clone();
    hex::encode(&encode_all(&[Case::Compute { request, room }]))
}
