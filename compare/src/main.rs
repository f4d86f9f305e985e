//! Compares the C library with the second program, layer by layer.

mod access;
mod capi;
mod compute;
mod condition;
mod deep;
mod floors;
mod list;
mod mended;
mod mutate;
mod order;
mod program;
mod repeat;
mod report;
mod script;
mod sidebyside;
mod tree;
mod watched;
mod wording;

use std::process::ExitCode;

use report::Report;

const USAGE: &str =
    "usage: compare list|compute|tree|deep|order|script|access|condition|wording|sidebyside
               --cases N --seed S
       compare program PATH --cases N --seed S
       compare repeat time|count library|second WHAT TIMES     (bench/rows.txt names what)";

/// What is compared.
enum Which {
    Layer(fn(usize, u64) -> Report),
    /// The program at a path.
    Program(String),
}

struct Run {
    which: Which,
    cases: usize,
    seed: u64,
}

impl Run {
    fn report(&self) -> Report {
        match &self.which {
            Which::Layer(compare) => compare(self.cases, self.seed),
            Which::Program(path) => program::compare(path, self.cases, self.seed),
        }
    }
}

fn main() -> ExitCode {
    let arguments: Vec<String> = std::env::args().skip(1).collect();
    let words: Vec<&str> = arguments.iter().map(String::as_str).collect();
    match words[..] {
        ["repeat", how, who, what, times] => return repeated(how, who, what, times),
        // `compare program` starts it by itself.
        ["witness"] => {
            return program::witness::run().map_or(ExitCode::FAILURE, |()| ExitCode::SUCCESS);
        }
        _ => {}
    }
    let Some(run) = parse(&words) else {
        eprintln!("{USAGE}");
        return ExitCode::FAILURE;
    };
    let report = run.report();
    print!("{}", report.text());
    let all_were_run = report.differences() == 0 && report.cases() == run.cases;
    if all_were_run && report.shortfalls().is_empty() {
        ExitCode::SUCCESS
    } else {
        ExitCode::FAILURE
    }
}

fn repeated(how: &str, who: &str, what: &str, times: &str) -> ExitCode {
    match times
        .parse()
        .ok()
        .and_then(|times| repeat::run(how, who, what, times))
    {
        Some(()) => ExitCode::SUCCESS,
        None => ExitCode::FAILURE,
    }
}

fn parse(words: &[&str]) -> Option<Run> {
    let (which, rest) = match words {
        ["program", path, rest @ ..] => (Which::Program(path.to_string()), rest),
        [layer, rest @ ..] => (Which::Layer(layer_by_name(layer)?), rest),
        [] => return None,
    };
    let &["--cases", cases, "--seed", seed] = rest else {
        return None;
    };
    Some(Run {
        which,
        cases: cases.parse().ok().filter(|&cases| cases > 0)?,
        seed: seed.parse().ok()?,
    })
}

fn layer_by_name(name: &str) -> Option<fn(usize, u64) -> Report> {
    match name {
        "list" => Some(list::compare),
        "compute" => Some(compute::compare),
        "tree" => Some(tree::compare),
        "deep" => Some(deep::compare),
        "order" => Some(order::compare),
        "script" => Some(script::compare),
        "access" => Some(access::compare),
        "condition" => Some(condition::compare),
        "wording" => Some(wording::compare),
        "sidebyside" => Some(sidebyside::compare),
        _ => None,
    }
}
