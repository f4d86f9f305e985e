//! What a comparison found, and whether it met all that it has to meet.

use std::collections::BTreeMap;

use crate::floors::Floors;

const SHOWN: usize = 10;

/// A name, and a number where what is counted is an answer.
pub type Counted = (&'static str, Option<u32>);

#[derive(Default)]
struct Count {
    times: usize,
    of: &'static str,
}

pub struct Report {
    layer: &'static str,
    floors: &'static Floors,
    cases: usize,
    counts: BTreeMap<Counted, Count>,
    greatest: BTreeMap<&'static str, usize>,
    notes: Vec<String>,
    not_asked: Vec<&'static str>,
    differences: usize,
    shown: Vec<String>,
}

impl Report {
    pub fn new(layer: &'static str, floors: &'static Floors) -> Report {
        Report {
            layer,
            floors,
            cases: 0,
            counts: BTreeMap::new(),
            greatest: BTreeMap::new(),
            notes: Vec::new(),
            not_asked: Vec::new(),
            differences: 0,
            shown: Vec::new(),
        }
    }

    /// Counts one case by its call and the second program's number.
    pub fn add(&mut self, call: &'static str, number: u32, difference: Option<String>) {
        self.count((call, Some(number)), 1, "cases");
        self.add_case(difference);
    }

    /// Counts one case of many calls.
    pub fn add_case(&mut self, difference: Option<String>) {
        self.cases += 1;
        let Some(difference) = difference else {
            return;
        };
        self.differences += 1;
        if self.shown.len() < SHOWN {
            self.shown.push(difference);
        }
    }

    /// Counts the branch that a case went by, or what else it had.
    pub fn add_branch(&mut self, branch: &'static str) {
        self.count((branch, None), 1, "cases");
    }

    /// Counts one call of a case.
    pub fn add_call(&mut self, call: &'static str, number: u32) {
        self.count((call, Some(number)), 1, "calls");
    }

    /// Counts a room that was handed in.
    pub fn add_room(&mut self, what: &'static str) {
        self.count((what, None), 1, "rooms");
    }

    /// Counts something that has a name of its own.
    pub fn add_times(&mut self, what: &'static str, times: usize) {
        self.count((what, None), times, "times");
    }

    fn count(&mut self, what: Counted, times: usize, of: &'static str) {
        let count = self.counts.entry(what).or_default();
        count.times += times;
        count.of = of;
    }

    /// Keeps the greatest of what a run reaches.
    pub fn reach(&mut self, what: &'static str, value: usize) {
        let greatest = self.greatest.entry(what).or_default();
        *greatest = value.max(*greatest);
    }

    /// A line for the reader.
    pub fn note(&mut self, line: String) {
        self.notes.push(line);
    }

    /// Where this machine can't have it, whatever the cases are.
    pub fn not_asked_here(&mut self, what: &'static str, why: &str) {
        self.not_asked.push(what);
        self.note(format!("not asked for here: {what}: {why}"));
    }

    pub fn cases(&self) -> usize {
        self.cases
    }

    pub fn differences(&self) -> usize {
        self.differences
    }

    fn times(&self, what: Counted) -> usize {
        self.counts.get(&what).map_or(0, |count| count.times)
    }

    /// What came too seldom or wasn't reached, and what no table has.
    pub fn shortfalls(&self) -> Vec<String> {
        let mut lines = self.unknown();
        if self.cases >= self.floors.least_cases {
            lines.extend(self.too_seldom());
            lines.extend(self.not_reached());
        }
        lines
    }

    fn too_seldom(&self) -> Vec<String> {
        let floors = self.floors.counts().map(|(what, floor)| {
            let scaled = (floor * self.cases).div_ceil(self.floors.cases);
            (what, self.times(what), scaled)
        });
        floors
            .filter(|((name, _), times, floor)| times < floor && !self.not_asked.contains(name))
            .map(|(what, times, floor)| {
                let what = named(what);
                format!("too seldom: {what} came {times} times, {floor} are asked for")
            })
            .collect()
    }

    fn not_reached(&self) -> Vec<String> {
        let floors = self.floors.greatest.iter().map(|&(what, floor)| {
            let reached = self.greatest.get(what).copied().unwrap_or(0);
            (what, reached, floor)
        });
        floors
            .filter(|(_, reached, floor)| reached < floor)
            .map(|(what, reached, floor)| {
                format!("not reached: {what} is {reached}, {floor} is asked for")
            })
            .collect()
    }

    /// An answer that the call can't give, or a name that nobody asks for.
    fn unknown(&self) -> Vec<String> {
        let known: Vec<Counted> = self.floors.counts().map(|(what, _)| what).collect();
        let counted = self.counts.iter();
        counted
            .filter(|(what, _)| !known.contains(what))
            .map(|(&what, count)| {
                let what = named(what);
                format!(
                    "not in the table: {what} came {} times in {} cases",
                    count.times, self.cases
                )
            })
            .collect()
    }

    pub fn text(&self) -> String {
        let mut lines = Vec::new();
        for (&what, count) in &self.counts {
            lines.push(format!("{}: {} {}", named(what), count.times, count.of));
        }
        for (what, value) in &self.greatest {
            lines.push(format!("{what}: {value}"));
        }
        lines.extend(self.notes.iter().cloned());
        if self.cases < self.floors.least_cases {
            let least = self.floors.least_cases;
            lines.push(format!("floors are not asked for under {least} cases"));
        }
        lines.extend(
            self.shown
                .iter()
                .map(|shown| format!("difference: {shown}")),
        );
        lines.extend(self.shortfalls());
        lines.push(format!(
            "{}: {} cases, {} differences",
            self.layer, self.cases, self.differences
        ));
        lines.join("\n") + "\n"
    }
}

fn named((name, number): Counted) -> String {
    match number {
        Some(number) => format!("{name} {number}"),
        None => name.to_string(),
    }
}

#[cfg(test)]
mod tests;
