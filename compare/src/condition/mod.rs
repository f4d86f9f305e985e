//! Evaluating expressions.

mod generate;

use crate::capi;
use crate::capi::WhenEmpty;
use crate::capi::lending::{Lending, Shared};
use crate::floors;
use crate::report::Report;
use crate::watched::Watched;
use generate::Subject;
use second::condition::{
    Expression, Refused, SIGNATURE, Table, Token, Truth, evaluate, padded_length, try_evaluate,
};
use second::hex;
use second::random::Random;
use second::records::{Case, encode_all};

/// Longer cases are told by their lengths.
const LONGEST_TOLD: usize = 4_000;

pub fn compare(cases: usize, seed: u64) -> Report {
    let mut random = Random::new(seed);
    let mut report = Report::new("condition", &floors::CONDITION);
    for _ in 0..cases {
        let subject = generate::subject(&mut random);
        compare_one(&mut random, &mut report, &subject);
    }
    report
}

fn compare_one(random: &mut Random, report: &mut Report, subject: &Subject) {
    let Subject {
        expression, table, ..
    } = subject;
    let outcome = try_evaluate(expression, table);
    let ours = evaluate(expression, table);
    let lent = (expression.clone(), table.clone());
    let when_empty = WhenEmpty::draw(random);
    let lending = match subject.together {
        true => Lending::together(when_empty, &[&lent.0, &lent.1], None),
        false => Lending::apart(when_empty),
    };
    let mut answer = Watched::draw(random);
    capi::condition::evaluate(&lent.0, &lent.1, answer.lent(), &lending);
    let theirs = answer.numbers();

    let difference = if theirs != ours {
        Some(format!("{theirs:?}, second {ours:?}"))
    } else if !answer.margins_are_unchanged() {
        Some("what stands about the answer was changed".to_string())
    } else if (&lent.0, &lent.1) != (expression, table) || !lending.is_unchanged() {
        Some("an input was changed".to_string())
    } else if outcome.is_ok() && !is_the_same_otherwise(random, subject, &theirs) {
        Some("with other zeros or another order the library tells otherwise".to_string())
    } else {
        None
    };
    if lending.shared(&lent.0, &lent.1) != Shared::Nothing {
        report.add_branch("expression and table in one range");
    }
    match outcome {
        Ok(truth) => count_done(report, subject, truth),
        Err(refused) => count_refused(report, table, refused),
    }
    let told = difference.map(|what| format!("evaluate {}: {what}", told(subject)));
    report.add("evaluate", ours[0], told);
}

/// Without zeros where there were some and with them where there were none;
/// and with the table's records the other way round.
fn is_the_same_otherwise(random: &mut Random, subject: &Subject, theirs: &[u32; 8]) -> bool {
    let mut expression = subject.expression.clone();
    let length = parsed(&expression).length;
    let other_length = match expression.len() {
        same if same == length => padded_length(length),
        _ => length,
    };
    expression.resize(other_length, 0);
    let table = in_reverse(&subject.table);
    let mut answer = [0; 8].map(|_: u32| random.word());
    let lending = Lending::apart(WhenEmpty::draw(random));
    capi::condition::evaluate(&expression, &table, &mut answer, &lending);
    answer == *theirs
}

fn parsed(expression: &[u8]) -> Expression<'_> {
    Expression::parse(expression).expect("it was evaluated")
}

fn in_reverse(table: &[u8]) -> Vec<u8> {
    let mut turned = Vec::new();
    let mut rest = table;
    while let Some(&length) = rest.first_chunk() {
        let size = 2 + usize::from(u16::from_le_bytes(length)) + 8;
        let (record, behind) = rest.split_at(size);
        turned.splice(0..0, record.iter().copied());
        rest = behind;
    }
    turned
}

fn tokens(expression: &[u8]) -> usize {
    let mut rest = expression.strip_prefix(&SIGNATURE).unwrap_or_default();
    let mut count = 0;
    while let Ok((_, behind)) = Token::cut_off(rest) {
        count += 1;
        rest = behind;
    }
    count
}

fn count_done(report: &mut Report, subject: &Subject, truth: Truth) {
    let Subject {
        expression, table, ..
    } = subject;
    report.add_branch(truth.name());
    let condition = parsed(expression).condition;
    let names = Table::parse(table).expect("it was evaluated").names();
    let found = [
        ("64 tokens", tokens(expression) == 64),
        ("depth 16", condition.depth() == 16),
        ("32 names", names == 32),
        ("by an empty table", table.is_empty()),
        (
            "the table decides",
            try_evaluate(expression, &[]) != Ok(truth),
        ),
    ];
    for (what, _) in found.into_iter().filter(|&(_, yes)| yes) {
        report.add_branch(what);
    }
    report.reach("most tokens", tokens(expression));
    report.reach("greatest depth", condition.depth());
    report.reach("most names", names);
    report.reach("longest expression", expression.len());
    report.reach("longest table", table.len());
}

fn count_refused(report: &mut Report, table: &[u8], refused: Refused) {
    report.add_branch(refused.name());
    let is_of_expression = matches!(refused, Refused::Expression(_));
    if is_of_expression && Table::parse(table).is_err() {
        report.add_branch("15 before 23");
    }
}

/// The case as a record of the case file, so that it can be tried again; a
/// long one by its lengths.
fn told(subject: &Subject) -> String {
    let Subject {
        expression, table, ..
    } = subject;
    let lengths = [expression.len(), table.len()];
    if lengths.iter().sum::<usize>() > LONGEST_TOLD {
        return format!("of {lengths:?} bytes");
    }
    hex::encode(&encode_all(&[Case::Evaluate {
        expression: expression.clone(),
        table: table.clone(),
    }]))
}
