//! Who may open what was computed by rule 2: the library is asked over the
//! list that it computed itself, the second program over its own.

use crate::capi;
use crate::capi::WhenEmpty;
use crate::capi::lending::Lending;
use crate::report::Report;
use second::access::{Question, may_open, try_may_open};
use second::ace::GENERIC;
use second::cases::build::nt_sid;
use second::computing::Request;
use second::list::{Entry, List};
use second::random::Random;

/// The lists of both, and what the second program's would be if "all" mapped
/// to nothing.
pub struct Lists<'a> {
    pub theirs: &'a [u8],
    pub ours: &'a [u8],
    pub without: Option<&'a [u8]>,
}

/// Says what differs, if anything does.
pub fn compare(
    random: &mut Random,
    report: &mut Report,
    request: &Request,
    lists: &Lists,
) -> Option<String> {
    let question = question(random, request, lists);
    let ours = may_open(&question);
    let asked = Question {
        list: lists.theirs.to_vec(),
        ..question.clone()
    };
    let mut theirs = [0; 8].map(|_: u32| random.word());
    let lending = Lending::apart(WhenEmpty::draw(random));
    capi::access::may_open(&asked, &mut theirs, &lending);
    count(report, &question, lists);
    (theirs != ours).then(|| {
        let Question { held, wanted, .. } = &question;
        let held = second::hex::encode(held);
        format!("opened {theirs:?}, second {ours:?}, by {held} wanting {wanted:08X}")
    })
}

/// In most cases by someone whom an entry names that hangs on 10000000.
fn question(random: &mut Random, request: &Request, lists: &Lists) -> Question {
    let parsed = List::parse(lists.ours).expect("it was computed");
    let without = lists.without.unwrap_or(lists.ours);
    let hangs = |entry: &&Entry| {
        let at = entry.offset;
        lists.ours[at..at + 8] != without[at..at + 8]
    };
    let hanging: Vec<&Entry> = parsed.entries.iter().filter(hangs).collect();
    let all: Vec<&Entry> = parsed.entries.iter().collect();
    let named = if hanging.is_empty() || random.chance(1, 8) {
        &all
    } else {
        &hanging
    };
    let stranger = nt_sid(&[random.word()]);
    let Some(named) = (!named.is_empty()).then(|| *random.pick(named)) else {
        return asked(request, lists.ours, stranger, 1);
    };
    let mut held = named.sid.to_vec();
    if random.chance(1, 3) {
        held.extend(random.pick(&all).sid);
    }
    if random.chance(1, 8) {
        held.extend(stranger);
    }
    let wanted = wanted(random, request, named);
    let question = asked(request, lists.ours, held, wanted);
    match named.object_type {
        Some(&object_type) if random.chance(7, 8) => question.of_object_type(object_type),
        _ => question,
    }
}

fn asked(request: &Request, list: &[u8], held: Vec<u8>, wanted: u32) -> Question {
    Question {
        has_list: 1,
        list: list.to_vec(),
        object_type: request.types.first_chunk().copied().unwrap_or([0; 16]),
        held,
        wanted,
    }
}

/// All that "all" maps to, some of it, the entry's whole mask, a bit besides.
fn wanted(random: &mut Random, request: &Request, named: &Entry) -> u32 {
    let all = request.mapping[3];
    let wanted = match random.below(6) {
        0 | 1 => all,
        2 => all & random.word(),
        3 => all & all.wrapping_neg(),
        4 => named.mask,
        _ => all | 1 << random.below(28),
    };
    wanted & !GENERIC
}

fn count(report: &mut Report, question: &Question, lists: &Lists) {
    let opens = |list: &[u8]| {
        let question = Question {
            list: list.to_vec(),
            ..question.clone()
        };
        try_may_open(&question).is_ok_and(|verdict| verdict.is_yes())
    };
    let is_opened = opens(lists.ours);
    report.add_branch(match is_opened {
        true => "opened",
        false => "not opened",
    });
    if lists.without.is_some_and(|list| opens(list) != is_opened) {
        report.add_branch(match is_opened {
            true => "opened by 10000000",
            false => "kept out by 10000000",
        });
    }
}
