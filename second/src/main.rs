//! The second program's commands.

use std::io::{self, Read, Write};
use std::process::ExitCode;

use second::cases;
use second::examples::{self, Example};
use second::records::{self, Case};
use second::tally::Tally;
use second::{hex, script};

const USAGE: &str = "usage:
  second cases all EXAMPLES     write the stored cases of every layer
  second cases list EXAMPLES    write the stored cases for reading
  second cases inherit          write the stored cases for the computation
  second cases tree             write the stored calls on a tree
  second cases script           write the stored scripts
  second cases access           write the stored questions who may open, and steps through lists
  second cases condition        write the stored expressions and tables
  second cases wording          write the stored texts of conditions
  second cases sidebyside       write the pairs of lists that are compared
  second sample EVERY           write one of so many cases of the case file on standard input
  second answer                 answer the case file on standard input
  second check-examples FILE    compare with the answers written by hand
  second tally                  count the answers to the case file on standard input
  second play                   play the script on standard input
  second bytes FILE             write the bytes that a file of commented hex holds
  second long BYTES             write a script of at least so many bytes";

fn main() -> ExitCode {
    let arguments: Vec<String> = std::env::args().skip(1).collect();
    let words: Vec<&str> = arguments.iter().map(String::as_str).collect();
    let outcome = match words[..] {
        ["cases", "all", path] => {
            read_examples(path).and_then(|examples| write_cases(&cases::all(&examples)))
        }
        ["cases", "list", path] => {
            read_examples(path).and_then(|examples| write_cases(&cases::list::all(&examples)))
        }
        ["cases", "inherit"] => write_cases(&cases::inherit::all()),
        ["cases", "tree"] => write_cases(&cases::tree::all()),
        ["cases", "script"] => write_cases(&cases::script::all()),
        ["cases", "access"] => write_cases(&cases::access::all()),
        ["cases", "condition"] => write_cases(&cases::condition::all()),
        ["cases", "wording"] => write_cases(&cases::wording::all()),
        ["cases", "sidebyside"] => write_cases(&cases::sidebyside::all()),
        ["sample", every] => sample(every),
        ["answer"] => answer(),
        ["check-examples", path] => check_examples(path),
        ["tally"] => tally(),
        ["play"] => play(),
        ["bytes", path] => write_bytes(path),
        ["long", least] => write_long(least),
        _ => Err(USAGE.to_string()),
    };
    match outcome {
        Ok(()) => ExitCode::SUCCESS,
        Err(why) => {
            eprintln!("{why}");
            ExitCode::FAILURE
        }
    }
}

fn write_cases(cases: &[Case]) -> Result<(), String> {
    write_out(&records::encode_all(cases))
}

fn sample(every: &str) -> Result<(), String> {
    let every = every.parse().ok().filter(|&every| every > 0);
    let every = every.ok_or("no number of cases")?;
    write_cases(&records::sampled(read_cases()?, every))
}

fn answer() -> Result<(), String> {
    write_out(records::answer_lines(&read_cases()?).as_bytes())
}

fn tally() -> Result<(), String> {
    let cases = read_cases()?;
    let lines = Tally::of(&cases).lines();
    write_out(format!("{lines}{:>8}  in all\n", cases.len()).as_bytes())
}

fn play() -> Result<(), String> {
    write_out(script::play(&read_input()?).text.as_bytes())
}

fn write_bytes(path: &str) -> Result<(), String> {
    let bytes = hex::decode_commented(&read_text(path)?);
    write_out(&bytes.map_err(|why| format!("{path}: {why}"))?)
}

/// Piece by piece, so that it may be longer than memory.
fn write_long(least: &str) -> Result<(), String> {
    let least = least
        .parse()
        .map_err(|_| format!("{least:?} is no number"))?;
    let mut out = io::stdout().lock();
    cases::script::long::write(&mut out, least)
        .and_then(|()| out.flush())
        .map_err(|why| why.to_string())
}

fn check_examples(path: &str) -> Result<(), String> {
    let examples = read_examples(path)?;
    let differences: Vec<String> = examples.iter().filter_map(Example::difference).collect();
    for difference in &differences {
        println!("{difference}");
    }
    if !differences.is_empty() {
        return Err(format!("{} examples differ", differences.len()));
    }
    println!("{} examples agreed", examples.len());
    Ok(())
}

fn read_examples(path: &str) -> Result<Vec<Example>, String> {
    examples::parse_all(&read_text(path)?).map_err(|why| format!("{path}: {why}"))
}

fn read_text(path: &str) -> Result<String, String> {
    std::fs::read_to_string(path).map_err(|why| format!("{path}: {why}"))
}

fn read_cases() -> Result<Vec<Case>, String> {
    records::decode_all(&read_input()?)
}

fn read_input() -> Result<Vec<u8>, String> {
    let mut input = Vec::new();
    io::stdin()
        .read_to_end(&mut input)
        .map_err(|why| why.to_string())?;
    Ok(input)
}

fn write_out(bytes: &[u8]) -> Result<(), String> {
    let mut out = io::stdout().lock();
    out.write_all(bytes)
        .and_then(|()| out.flush())
        .map_err(|why| why.to_string())
}
