//! How often each answer, and each test behind it, is met by the cases.

use std::collections::BTreeMap;

use crate::access::{self, Question, Refused, Verdict};
use crate::computing::{self, Request, WhichList};
use crate::condition;
use crate::identity;
use crate::list::spare_bytes;
use crate::reading;
use crate::records::{Case, fresh_room, fresh_row, fresh_row_of_numbers};
use crate::script::{self, Ending};
use crate::sidebyside::{self, Lists, Tie};
use crate::tree::{Call, Outcome, Part, Player};
use crate::wording;

#[derive(Default)]
pub struct Tally {
    counts: BTreeMap<String, usize>,
}

impl Tally {
    pub fn of(cases: &[Case]) -> Tally {
        let mut tally = Tally::default();
        let mut player = Player::default();
        for case in cases {
            if let Case::Play { script, out_length } = case {
                tally.add_script(script, *out_length);
            } else {
                tally.add(label(case, &mut player));
            }
            match case {
                Case::Compute { request, room } => tally.add_spare_bytes(request, *room),
                Case::MayOpen(question) => tally.add_question(question, &[]),
                Case::MayOpenWith { question, table } => tally.add_question(question, table),
                Case::Step { list, .. } if spare_bytes(list) > 0 => {
                    tally.add("step 0  spare bytes".to_string());
                }
                Case::Compare { lists, row_length } => tally.add_compared(lists, *row_length),
                _ => {}
            }
        }
        tally
    }

    pub fn add(&mut self, label: String) {
        *self.counts.entry(label).or_default() += 1;
    }

    /// How it ended, and what became of each of its records.
    fn add_script(&mut self, script: &[u8], out_length: u16) {
        let played = script::play_watched(script, |call, outcome| {
            self.add(call_label("record", call, outcome));
        });
        let too_short = usize::from(out_length) < played.text.len();
        self.add(match played.ending {
            _ if too_short => "play 8  out too short".to_string(),
            Ending::Listing { .. } => "play 0  listing".to_string(),
            Ending::Bad { why, .. } => format!("play 0  {}", why.name()),
        });
    }

    /// Each list that has them, where the computation is done.
    fn add_spare_bytes(&mut self, request: &Request, room: usize) {
        if computing::try_compute(request, &mut fresh_room(room)).is_err() {
            return;
        }
        for which in WhichList::ALL {
            let list = request.list(which);
            if list.is_some_and(|list| spare_bytes(list) > 0) {
                self.add(format!("compute 0  spare bytes: {}", which.name()));
            }
        }
    }

    /// Where there is a list and the question is answered: its spare bytes, and
    /// what its conditions come to.
    fn add_question(&mut self, question: &Question, table: &[u8]) {
        let Some(list) = question.present_list() else {
            return;
        };
        if access::try_may_open_with(question, table).is_err() {
            return;
        }
        if spare_bytes(list) > 0 {
            self.add("may open 0  spare bytes".to_string());
        }
        for (entry_type, truth) in access::truths(list, table) {
            let what = if entry_type.is_allow() {
                "allow"
            } else {
                "deny"
            };
            self.add(format!("may open 0  {what}: {}", truth.name()));
        }
    }

    /// What differs besides entries, and between which ways the least one was
    /// chosen, where the lists are compared.
    fn add_compared(&mut self, (first, second): &Lists, row_length: u16) {
        let mut row = fresh_row_of_numbers(row_length);
        let Ok(compared) = sidebyside::try_compare(first, second, &mut row) else {
            return;
        };
        let found = [
            ("headers differ", compared.headers_differ),
            ("spare bytes differ", compared.spare_bytes_differ),
        ];
        let differing = found.iter().filter(|(_, differ)| *differ);
        let ties = sidebyside::ties(first, second).into_iter();
        let names = differing.map(|(name, _)| *name);
        for name in names.chain(ties.map(Tie::name)) {
            self.add(format!("compare 0  {name}"));
        }
    }

    pub fn count(&self, label: &str) -> usize {
        self.counts.get(label).copied().unwrap_or(0)
    }

    pub fn lines(&self) -> String {
        let lines = self.counts.iter();
        lines
            .map(|(label, count)| format!("{count:>8}  {label}\n"))
            .collect()
    }
}

fn label(case: &Case, player: &mut Player) -> String {
    match case {
        Case::Identity(bytes) => format!("identity {}", identity::classify(bytes)),
        Case::Read { row_length, list } => {
            match reading::try_read(list, &mut fresh_row(*row_length)) {
                Ok(parsed) if parsed.end < list.len() => "read 0  spare bytes".to_string(),
                Ok(_) => "read 0".to_string(),
                Err(refusal) => {
                    let fault = refusal.fault;
                    format!("read {}  {}", fault.number(), fault.name())
                }
            }
        }
        Case::Compute { request, room } => compute_label(request, *room),
        Case::Tree(call) => call_label("tree", call, &player.play(call)),
        Case::Play { .. } => unreachable!("a script is counted record by record"),
        Case::MayOpen(question) => may_open_label("may open", access::try_may_open(question)),
        Case::MayOpenWith { question, table } => {
            may_open_label("may open with", access::try_may_open_with(question, table))
        }
        Case::Evaluate { expression, table } => evaluate_label(expression, table),
        Case::Step { list, place } => step_label(list, *place),
        Case::Condition { text, out_length } => condition_label(text, *out_length),
        Case::Compare { lists, row_length } => compare_label(lists, *row_length),
    }
}

fn call_label(of: &str, call: &Call, outcome: &Outcome) -> String {
    let name = call.name();
    match outcome.result() {
        None => format!("{of} {name}"),
        Some(Ok(_)) if meets_spare_bytes(call, outcome) => {
            format!("{of} {name} 0  spare bytes")
        }
        Some(Ok(_)) => format!("{of} {name} 0"),
        Some(Err(refused)) => {
            let number = refused.answer().number;
            format!("{of} {name} {number}  {}", refused.name())
        }
    }
}

/// Whether the call was given a list that has them, or gave one back.
fn meets_spare_bytes(call: &Call, outcome: &Outcome) -> bool {
    let list = match (call, outcome) {
        (Call::Start { start, .. }, _) => start.default_list(),
        (Call::Change(change), _) => change.given_list(),
        (
            Call::Read {
                part: Part::List | Part::Own,
                ..
            },
            Outcome::ReadBack(Ok(answer), out),
        ) => out.get(..answer.length as usize),
        _ => None,
    };
    list.is_some_and(|list| spare_bytes(list) > 0)
}

fn compute_label(request: &Request, room: usize) -> String {
    match computing::try_compute(request, &mut fresh_room(room)) {
        Ok(done) => format!("compute 0  {}", done.branch.name()),
        Err(refused) => format!("compute {}  {}", refused.number(), refused.name()),
    }
}

fn may_open_label(call: &str, answered: Result<Verdict, Refused>) -> String {
    match answered {
        Ok(verdict) => format!("{call} 0  {}", verdict.name()),
        Err(refused) => {
            let number = refused.answer().number;
            format!("{call} {number}  {}", refused.name())
        }
    }
}

fn evaluate_label(expression: &[u8], table: &[u8]) -> String {
    match condition::try_evaluate(expression, table) {
        Ok(truth) => format!("evaluate 0  {}", truth.name()),
        Err(refused) => {
            let number = refused.answer().number;
            format!("evaluate {number}  {}", refused.name())
        }
    }
}

fn condition_label(text: &[u8], out_length: u16) -> String {
    match wording::try_condition(text, &mut vec![0; out_length.into()]) {
        Ok(_) => "condition 0".to_string(),
        Err(refused) => {
            let fault = refused.fault;
            format!("condition {}  {}", fault.number(), fault.name())
        }
    }
}

fn compare_label((first, second): &Lists, row_length: u16) -> String {
    let mut row = fresh_row_of_numbers(row_length);
    match sidebyside::try_compare(first, second, &mut row) {
        Ok(compared) => format!("compare 0  {}", compared.name()),
        Err(refused) => {
            let number = refused.answer().number;
            format!("compare {number}  {}", refused.name())
        }
    }
}

fn step_label(list: &[u8], place: u32) -> String {
    match access::try_step(list, place) {
        Ok(Some(_)) => "step 0  to an entry".to_string(),
        Ok(None) => "step 0  none left".to_string(),
        Err(refusal) => {
            let fault = refusal.fault;
            format!("step {}  {}", fault.number(), fault.name())
        }
    }
}
