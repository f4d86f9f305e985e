//! What the report tells of a case that differs.

use super::check::{Both, Given};
use crate::report::Report;
use second::hex;
use second::random::Random;
use second::records::{Case, calls, encode_all};
use second::room::Found;
use second::tree::{Add, Call, Change};

/// More calls than this many bytes hold are told by their number alone.
const LONGEST: usize = 4_000;
/// Of changed bytes.
const MOST_BYTES: usize = 8;

/// The calls on one room so far.
#[derive(Clone, Default)]
pub struct Told {
    calls: Vec<Call>,
}

impl Told {
    pub fn play(
        &mut self,
        both: &mut Both,
        random: &mut Random,
        report: &mut Report,
        call: Call,
    ) -> Result<(), String> {
        let outcome = both.play(random, report, &call);
        self.note(call, outcome)
    }

    /// Any call but the one for a length.
    pub fn ask(
        &mut self,
        both: &mut Both,
        random: &mut Random,
        report: &mut Report,
        call: Call,
    ) -> Result<Given, String> {
        let outcome = both.ask(random, report, &call);
        self.note(call, outcome)
    }

    fn note<T>(&mut self, call: Call, outcome: Result<T, String>) -> Result<T, String> {
        self.calls.push(call);
        outcome.map_err(|what| self.text(&what))
    }

    /// As a case file, so that it can be tried again.
    pub fn text(&self, what: &str) -> String {
        let name = self.calls.last().map_or("none", Call::name);
        let text = format!("{what}, by call {}, {name}", self.calls.len());
        if !self.calls.iter().all(fits_a_record) {
            return text;
        }
        let cases: Vec<Case> = self.calls.iter().cloned().map(Case::Tree).collect();
        let file = encode_all(&cases);
        if file.len() > LONGEST {
            return text;
        }
        format!("{text}, of {}", hex::encode(&file))
    }
}

fn fits_a_record(call: &Call) -> bool {
    let list = match call {
        Call::Start { start, .. } => &start.default_list,
        Call::Change(Change::Add(Add { list, .. }) | Change::SetList { list, .. }) => list,
        _ => return true,
    };
    list.len() <= calls::LONGEST_LIST
}

pub fn damage(before: &[u8], after: &[u8]) -> String {
    if before.len() != after.len() {
        return format!("cut to {} bytes", after.len());
    }
    let pairs = before.iter().zip(after).enumerate();
    let changed: Vec<String> = pairs
        .filter(|(_, (old, new))| old != new)
        .map(|(at, (old, new))| format!("{at}: {old} to {new}"))
        .collect();
    let shown = &changed[..changed.len().min(MOST_BYTES)];
    format!("{} bytes, first {}", changed.len(), shown.join(", "))
}

pub fn tree(found: &Found) -> String {
    format!(
        "{} objects and {} steps, limits {} and {}",
        found.objects.len(),
        found.steps.len(),
        found.limits.objects,
        found.limits.steps
    )
}
