//! Playing whole scripts.

pub mod generate;

use crate::capi::{self, WhenEmpty};
use crate::floors;
use crate::report::Report;
use crate::tree::spare;
use second::hex;
use second::random::Random;
use second::script::{self, Ending, Played};

/// Bytes before and after `out` that nobody may touch.
const MARGIN: usize = 16;
/// Longer scripts are told by their length.
const LONGEST_TOLD: usize = 4_000;

/// Each case draws from a generator of its own, so that it stays the same
/// whatever the others find.
pub fn compare(cases: usize, seed: u64) -> Report {
    let mut seeds = Random::new(seed);
    let mut report = Report::new("script", &floors::SCRIPT);
    for number in 1..=cases {
        let mut random = Random::new(seeds.draw());
        let script = generate::script(&mut random);
        compare_one(&mut random, &mut report, number, &script);
    }
    report
}

fn compare_one(random: &mut Random, report: &mut Report, number: usize, script: &[u8]) {
    let played = play_and_count(report, script);
    let out_length = out_length(random, played.text.len());
    let before = random.bytes(out_length + 2 * MARGIN);
    let inside = MARGIN..MARGIN + out_length;

    let mut our_out = before.clone();
    let ours = played.answer(&mut our_out[inside.clone()]).eight();

    let lent = script.to_vec();
    let mut their_out = before;
    let mut theirs = [0; 8].map(|_: u32| random.word());
    let empty = WhenEmpty::draw(random);
    capi::script::play(&lent, &mut their_out[inside], &mut theirs, empty);

    let difference = if theirs != ours {
        Some(format!("{theirs:?}, second {ours:?}"))
    } else if their_out != our_out {
        Some(format!(
            "{:?}, second {:?}",
            String::from_utf8_lossy(&their_out[MARGIN..]),
            played.text
        ))
    } else if lent != script {
        Some("the script was changed".to_string())
    } else {
        None
    };
    let told = difference.map(|what| format!("case {number}: {what}, of {}", told(script)));
    report.add("play", ours[0], told);
}

/// Counts how it ends and what becomes of its records.
pub fn play_and_count(report: &mut Report, script: &[u8]) -> Played {
    let played = script::play_watched(script, |call, outcome| {
        let number = outcome.eight().map_or(0, |numbers| numbers[0]);
        report.add_call(call.name(), number);
        spare::count(report, call, outcome);
    });
    report.add_branch(match played.ending {
        Ending::Listing { .. } => "listing",
        Ending::Bad { why, .. } => why.name(),
    });
    played
}

fn out_length(random: &mut Random, text: usize) -> usize {
    match random.below(16) {
        0 => 0,
        1 => text - 1,
        2 => random.below(text),
        3..9 => text,
        9 => 1_100,
        _ => text + random.below(20),
    }
}

pub fn told(script: &[u8]) -> String {
    if script.len() > LONGEST_TOLD {
        return format!("{} bytes", script.len());
    }
    hex::encode(script)
}
