//! What the stored form comes to in the library, against what the text means
//! by what it says.

use super::generate::Subject;
use crate::capi;
use crate::capi::WhenEmpty;
use crate::capi::lending::Lending;
use crate::report::Report;
use crate::watched::Watched;
use second::cases::condition::make::{record_of, table, units};
use second::condition::Truth;
use second::random::Random;
use second::wording::read;

/// So many tables for each text, and one that is empty at times.
const TABLES: usize = 3;

/// By several tables, the first that differs.
pub fn difference(
    random: &mut Random,
    report: &mut Report,
    subject: &Subject,
    form: &[u8],
) -> Option<String> {
    let said = read(&subject.text).expect("it was translated");
    let mut truths = Vec::new();
    for _ in 0..TABLES {
        let values = subject.words.values(random);
        let value_of = |name: &str| {
            let value = values.iter().find(|(known, _)| known == name);
            value.map(|&(_, value)| value)
        };
        let truth = said.meaning(&value_of);
        let table = stored_table(random, &values);
        let theirs = evaluated(random, form, &table);
        if theirs != [0, 0, 0, truth.number(), 0, 0, 0, 0] {
            let meant = truth.name();
            return Some(format!(
                "comes to {theirs:?} by {values:?}, and means {meant}"
            ));
        }
        count(report, truth, values.is_empty());
        truths.push(truth);
    }
    if truths.iter().any(|&truth| truth != truths[0]) {
        report.add_branch("the table decides");
    }
    None
}

/// The values as records, and among them some names that no text can have.
fn stored_table(random: &mut Random, values: &[(String, i64)]) -> Vec<u8> {
    let values: Vec<(&str, i64)> = values
        .iter()
        .map(|(name, value)| (name.as_str(), *value))
        .collect();
    let mut bytes = table(&values);
    let others: [&[u8]; 4] = [b"a0", b"\0a", b"a\0\0\0", &units("a b")];
    for other in others {
        if random.chance(1, 6) {
            let record = record_of(other, random.draw() as i64);
            let at = *random.pick(&[0, bytes.len()]);
            bytes.splice(at..at, record);
        }
    }
    bytes
}

fn evaluated(random: &mut Random, form: &[u8], table: &[u8]) -> [u32; 8] {
    let mut answer = Watched::draw(random);
    let lending = Lending::apart(WhenEmpty::draw(random));
    capi::condition::evaluate(form, table, answer.lent(), &lending);
    answer.numbers()
}

fn count(report: &mut Report, truth: Truth, is_empty: bool) {
    report.add_times(
        match truth {
            Truth::True => "means true",
            Truth::False => "means false",
            Truth::Unknown => "means unknown",
        },
        1,
    );
    if is_empty {
        report.add_times("means something without a name", 1);
    }
}
