//! Translating the texts of conditions, and what they mean.

mod generate;
mod means;

use crate::capi;
use crate::capi::WhenEmpty;
use crate::floors;
use crate::report::Report;
use crate::watched::Watched;
use generate::Subject;
use second::hex;
use second::random::Random;
use second::wording::{Fault, LONGEST_TEXT, Refused, Stored, condition, translate, try_condition};

/// Bytes before and after `out` that nobody may touch.
const MARGIN: usize = 16;
/// Longer texts are told by their length.
const LONGEST_TOLD: usize = 1_000;
/// No stored form is as long.
const PLENTY: usize = 3_000;

pub fn compare(cases: usize, seed: u64) -> Report {
    let mut random = Random::new(seed);
    let mut report = Report::new("wording", &floors::WORDING);
    for _ in 0..cases {
        let subject = generate::subject(&mut random);
        compare_one(&mut random, &mut report, &subject);
    }
    report
}

fn compare_one(random: &mut Random, report: &mut Report, subject: &Subject) {
    let text = &subject.text;
    let out_length = out_length(random, text);
    let before = random.bytes(out_length + 2 * MARGIN);
    let inside = MARGIN..MARGIN + out_length;

    let mut our_out = before.clone();
    let outcome = try_condition(text, &mut before.clone()[inside.clone()]);
    let ours = condition(text, &mut our_out[inside.clone()]);

    let lent = text.clone();
    let mut their_out = before;
    let mut answer = Watched::draw(random);
    let empty = WhenEmpty::draw(random);
    capi::wording::condition(&lent, &mut their_out[inside], answer.lent(), empty);
    let theirs = answer.numbers();

    let difference = if theirs != ours {
        Some(format!("{theirs:?}, second {ours:?}"))
    } else if !answer.margins_are_unchanged() {
        Some("what stands about the answer was changed".to_string())
    } else if their_out != our_out {
        let [theirs, ours] = [&their_out, &our_out].map(|out| hex::encode(out));
        Some(format!("out {theirs}, second {ours}"))
    } else if lent != *text {
        Some("the text was changed".to_string())
    } else if outcome.is_ok() {
        let form = &their_out[MARGIN..][..theirs[3] as usize];
        means::difference(random, report, subject, form)
    } else {
        None
    };
    match &outcome {
        Ok(stored) => count_done(report, text, stored, out_length),
        Err(refused) => count_refused(report, text, *refused, out_length),
    }
    let told = difference.map(|what| format!("condition {}: {what}", told(text)));
    report.add("condition", ours[0], told);
}

fn out_length(random: &mut Random, text: &[u8]) -> usize {
    let form = translate(text).map_or(40, |stored| stored.bytes.len());
    match random.below(16) {
        0 => 0,
        1 => form - 1,
        2 => random.below(form),
        3 => PLENTY,
        4..9 => form,
        _ => form + random.below(20),
    }
}

fn count_done(report: &mut Report, text: &[u8], stored: &Stored, out_length: usize) {
    let found = [
        ("64 tokens", stored.tokens == 64),
        ("depth 16", stored.depth == 16),
        ("nested 12 deep", nesting(text) == 12),
        ("512 bytes", text.len() == LONGEST_TEXT),
        ("out is exact", out_length == stored.bytes.len()),
    ];
    for (what, _) in found.into_iter().filter(|&(_, yes)| yes) {
        report.add_branch(what);
    }
    report.reach("most tokens", stored.tokens);
    report.reach("greatest depth", stored.depth);
    report.reach("deepest nesting", nesting(text));
    report.reach("longest text", text.len());
    report.reach("longest form", stored.bytes.len());
}

/// The most parentheses that are open at once.
fn nesting(text: &[u8]) -> usize {
    let (mut open, mut most) = (0, 0);
    for byte in text {
        match byte {
            b'(' => open += 1,
            b')' => open -= 1,
            _ => {}
        }
        most = open.max(most);
    }
    most
}

fn count_refused(report: &mut Report, text: &[u8], refused: Refused, out_length: usize) {
    report.add_branch(refused.fault.name());
    let found = [
        (
            "an offset within the text",
            (1..text.len()).contains(&refused.offset) && refused.fault != Fault::TooLong,
        ),
        (
            "17 before 8",
            refused.fault.number() == 17 && out_length == 0,
        ),
        (
            "16 before 8",
            refused.fault.number() == 16 && out_length == 0,
        ),
        (
            "16 behind what is 17 by itself",
            translate(&text[..refused.offset]).is_err_and(|part| part.fault.number() == 17),
        ),
        ("one byte too many", text.len() == LONGEST_TEXT + 1),
    ];
    for (what, _) in found.into_iter().filter(|&(_, yes)| yes) {
        report.add_branch(what);
    }
    report.reach("latest offset", refused.offset);
    report.reach("longest text that is refused", text.len());
}

/// As hex, as it may be any bytes; a long one by its length.
fn told(text: &[u8]) -> String {
    if text.len() > LONGEST_TOLD {
        return format!("of {} bytes", text.len());
    }
    let shown = String::from_utf8_lossy(text);
    format!("{} ({shown:?})", hex::encode(text))
}
