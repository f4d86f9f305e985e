//! The program itself, run as a child that is given its script in pieces, and
//! whose text is taken in ways that make its writes wait or come back short.

mod input;
mod output;
mod posix;
mod watch;
pub mod witness;

use std::env;
use std::io;
use std::process::{Child, Command, Stdio};
use std::thread;

use crate::floors;
use crate::report::Report;
use crate::script::{generate, play_and_count, told};
use output::Taken;
use second::random::Random;
use witness::Seen;

/// How often a script is longer than any buffer of one record, and how often
/// each of the ways comes.
const ONE_IN: usize = 20;
/// Of the witness's input.
const WITNESSED: usize = 300;
/// How often it is asked, where a terminal doesn't cut its write at once.
const TRIES: usize = 3;
/// Names of the report.
const SINGLE: &str = "reads of a single byte";
const WAITED: &str = "writes to a full pipe that waited";
const SHORT: &str = "writes to a full terminal that came back short";

/// How a script is handed over and a text taken.
#[derive(Clone, Copy, PartialEq, Eq)]
enum Way {
    Pieces,
    SingleBytes,
    FullPipe { free: usize },
    FullTerminal { size: usize, free: usize },
}

pub fn compare(path: &str, cases: usize, seed: u64) -> Report {
    let mut seeds = Random::new(seed);
    let mut report = Report::new("program", &floors::PROGRAM);
    let usable = ask_the_witness(&mut report, Random::new(seeds.draw()));
    for number in 1..=cases {
        let mut random = Random::new(seeds.draw());
        let script = script(&mut random, number);
        let expected = play_and_count(&mut report, &script).text;
        let way = way(&mut random, number, expected.len(), &usable);
        let difference = match run(Command::new(path), &script, way, random) {
            Ok(ran) if ran.taken.text == expected.as_bytes() => {
                count_seen(&mut report, way, &ran);
                None
            }
            Ok(ran) => Some(format!(
                "{:?}, second {expected:?}",
                String::from_utf8_lossy(&ran.taken.text)
            )),
            Err(why) => Some(why),
        };
        report.add_case(difference.map(|what| {
            let told = told(&script);
            format!("case {number}: {what}, of {told}")
        }));
    }
    report
}

/// The second is long and good, the third long and cut, whatever else is drawn.
fn script(random: &mut Random, number: usize) -> Vec<u8> {
    match number % ONE_IN {
        2 => generate::long(random),
        3 => {
            let mut script = generate::long(random);
            script.truncate(script.len() - random.below(2_000));
            script
        }
        5 | 15 => short_script(random),
        11 => generate::full_of_refusals(random),
        _ => generate::script(random),
    }
}

fn short_script(random: &mut Random) -> Vec<u8> {
    loop {
        let script = generate::script(random);
        if script.len() <= input::LONGEST_IN_SINGLE_BYTES {
            return script;
        }
    }
}

/// Fewer bytes are free than the text has.
fn way(random: &mut Random, number: usize, text: usize, usable: &Usable) -> Way {
    match number % ONE_IN {
        5 | 15 => Way::SingleBytes,
        7 | 17 if usable.full_pipe => Way::FullPipe {
            free: random.below(text),
        },
        9 | 19 if usable.full_terminal => Way::FullTerminal {
            size: usable.terminal_size,
            free: 1 + random.below(text - 1),
        },
        _ => Way::Pieces,
    }
}

struct Ran {
    taken: Taken,
    single_bytes: usize,
    /// On standard error, where that is kept.
    said: String,
}

/// A program that ends by a signal has failed, whatever it wrote before.
fn run(mut program: Command, script: &[u8], way: Way, mut random: Random) -> Result<Ran, String> {
    let (goes_to, output) = match way {
        Way::Pieces | Way::SingleBytes => output::pipe(),
        Way::FullPipe { free } => output::full_pipe(free),
        // A terminal that can't be filled in time says nothing of the program.
        Way::FullTerminal { size, free } => {
            output::full_terminal(size, free).or_else(|_| output::pipe())
        }
    }
    .map_err(|why| format!("output: {why}"))?;
    let spawned = program.stdin(Stdio::piped()).stdout(goes_to).spawn();
    let mut child = spawned.map_err(|why| format!("{program:?}: {why}"))?;
    // It holds the output's other end, which only the child is to hold.
    drop(program);
    let input = child.stdin.take().expect("it is piped");
    let process = child.id();
    let pieces = Random::new(random.draw());
    let (handed, taken) = thread::scope(|scope| {
        let writer = scope.spawn(|| match way {
            Way::SingleBytes => input::in_single_bytes(input, script),
            _ => input::in_pieces(input, script, pieces).map(|()| 0),
        });
        let taken = output.take(process, &mut random);
        (writer.join().expect("the writer doesn't panic"), taken)
    });
    let said = end(child)?;
    Ok(Ran {
        taken: taken?,
        single_bytes: handed.map_err(|why| format!("writing: {why}"))?,
        said,
    })
}

fn end(child: Child) -> Result<String, String> {
    let output = child.wait_with_output().map_err(|why| why.to_string())?;
    match output.status.code() {
        Some(_) => Ok(String::from_utf8_lossy(&output.stderr).into_owned()),
        None => Err(format!("ended by {}", output.status)),
    }
}

fn count_seen(report: &mut Report, way: Way, ran: &Ran) {
    match way {
        Way::Pieces => {}
        Way::SingleBytes => report.add_times(SINGLE, ran.single_bytes),
        Way::FullPipe { .. } => report.add_times(WAITED, ran.taken.waited.into()),
        Way::FullTerminal { .. } => report.add_times(SHORT, ran.taken.short.is_some().into()),
    }
}

/// What this machine lets be had and seen.
struct Usable {
    full_pipe: bool,
    full_terminal: bool,
    terminal_size: usize,
}

/// Runs a program that counts its reads and writes, in each of the ways. What a
/// machine doesn't let be had or seen isn't asked for, and that is told.
fn ask_the_witness(report: &mut Report, mut random: Random) -> Usable {
    let mut ask = |name, way| {
        let asked = witnessed(way, Random::new(random.draw()));
        report.note(match &asked {
            Ok((seen, _)) => format!("witness, {name}: {seen}"),
            Err(why) => format!("witness, {name}: {why}"),
        });
        asked.unwrap_or_default()
    };
    let free = witness::TEXT.len() / 2;
    let size = output::terminal_size().unwrap_or(0);
    let (single, _) = ask("single bytes", Way::SingleBytes);
    let (_, waited) = ask("a full pipe", Way::FullPipe { free });
    let cuts = (0..TRIES).any(|_| {
        let (seen, _) = ask("a full terminal", Way::FullTerminal { size, free });
        seen.writes > 1
    });
    if (single.reads, single.longest_read) != (WITNESSED, 1) {
        report.add_case(Some("the witness's reads were no single bytes".to_string()));
    }
    if !waited {
        report.not_asked_here(WAITED, "the witness isn't seen to wait");
    }
    if !cuts {
        report.not_asked_here(SHORT, "no terminal cuts the witness's write");
    }
    Usable {
        full_pipe: waited,
        full_terminal: cuts,
        terminal_size: size,
    }
}

/// What it told, and whether it was seen to wait.
fn witnessed(way: Way, random: Random) -> Result<(Seen, bool), String> {
    let failed = |why: io::Error| why.to_string();
    let mut program = Command::new(env::current_exe().map_err(failed)?);
    program.arg("witness").stderr(Stdio::piped());
    let ran = run(program, &[b'x'; WITNESSED], way, random)?;
    if ran.taken.text != witness::TEXT {
        return Err("its text didn't come back".to_string());
    }
    let seen = Seen::parse(&ran.said).ok_or_else(|| format!("it said {:?}", ran.said))?;
    Ok((seen, ran.taken.waited))
}
