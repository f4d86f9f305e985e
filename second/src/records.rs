//! The case file's records and the answers to them.

pub mod calls;
mod computation;
mod conditional;
mod opening;
mod playing;
mod reader;
mod sidebyside;
mod sized;
#[cfg(test)]
mod testing;
mod wording;

use crate::access::Question;
use crate::computing::Request;
use crate::hex;
use crate::identity::{self, Identity, LONGEST};
use crate::reading;
use crate::sidebyside::Lists;
use crate::tree::{Call, Player};
pub use computation::{LONGEST_OTHER, LONGEST_ROOM, fresh_room};
pub use conditional::{LONGEST_EXPRESSION, LONGEST_TABLE};
pub use opening::LONGEST_HELD;
pub use playing::LONGEST_SCRIPT;
pub use sidebyside::{LONGEST_ROW, fresh_row as fresh_row_of_numbers};
pub use wording::{LONGEST_OUT as LONGEST_FORM, LONGEST_TEXT};

const KIND_READ: u8 = 1;
const KIND_IDENTITY: u8 = 2;
const KIND_COMPUTE: u8 = 3;
/// The last byte of every case file, so that a cut one is seen.
const END: u8 = 0;

#[derive(Clone, Debug, PartialEq, Eq, Hash)]
pub enum Case {
    Read { row_length: u16, list: Vec<u8> },
    Identity(Vec<u8>),
    Compute { request: Request, room: usize },
    Tree(Call),
    Play { script: Vec<u8>, out_length: u16 },
    MayOpen(Question),
    Step { list: Vec<u8>, place: u32 },
    Evaluate { expression: Vec<u8>, table: Vec<u8> },
    MayOpenWith { question: Question, table: Vec<u8> },
    Condition { text: Vec<u8>, out_length: u16 },
    Compare { lists: Lists, row_length: u16 },
}

impl Case {
    pub fn read(row_length: usize, list: Vec<u8>) -> Case {
        let row_length = u16::try_from(row_length).expect("rows of cases are short");
        Case::Read { row_length, list }
    }

    pub fn encode(&self, out: &mut Vec<u8>) {
        let (kind, row_length, payload) = match self {
            Case::Read { row_length, list } => (KIND_READ, *row_length, list),
            Case::Identity(bytes) => (KIND_IDENTITY, 0, bytes),
            Case::Compute { request, room } => return computation::encode(request, *room, out),
            Case::Tree(call) => return calls::encode(call, out),
            Case::Play { script, out_length } => return playing::encode(script, *out_length, out),
            Case::MayOpen(question) => return opening::encode(question, out),
            Case::Step { list, place } => return opening::encode_step(list, *place, out),
            Case::Evaluate { expression, table } => {
                return conditional::encode_evaluate(expression, table, out);
            }
            Case::MayOpenWith { question, table } => {
                return conditional::encode(question, table, out);
            }
            Case::Condition { text, out_length } => {
                return wording::encode(text, *out_length, out);
            }
            Case::Compare { lists, row_length } => {
                return sidebyside::encode(lists, *row_length, out);
            }
        };
        out.extend_from_slice(&[kind, 0]);
        out.extend_from_slice(&row_length.to_le_bytes());
        out.extend_from_slice(&(payload.len() as u32).to_le_bytes());
        out.extend_from_slice(payload);
    }
}

/// The records of any layers, and the end.
pub fn encode_all(cases: &[Case]) -> Vec<u8> {
    let mut file = Vec::new();
    for case in cases {
        case.encode(&mut file);
    }
    file.push(END);
    file
}

/// Takes all records of a case file, or says what is wrong with one.
pub fn decode_all(mut file: &[u8]) -> Result<Vec<Case>, String> {
    let whole = file.len();
    let mut cases = Vec::new();
    loop {
        match file {
            [] => return Err("no end".to_string()),
            [END] => return Ok(cases),
            _ => {}
        }
        let at = whole - file.len();
        let (case, rest) = decode(file).map_err(|why| format!("record at {at}: {why}"))?;
        cases.push(case);
        file = rest;
    }
}

fn decode(file: &[u8]) -> Result<(Case, &[u8]), &'static str> {
    match file.first() {
        Some(&KIND_COMPUTE) => return computation::decode(file),
        Some(kind) if calls::KINDS.contains(kind) => return calls::decode(file),
        Some(&playing::KIND) => return playing::decode(file),
        Some(&opening::MAY_OPEN) => return opening::decode(file),
        Some(&opening::STEP) => return opening::decode_step(file),
        Some(&conditional::EVALUATE) => return conditional::decode_evaluate(file),
        Some(&conditional::MAY_OPEN_WITH) => return conditional::decode(file),
        Some(&wording::KIND) => return wording::decode(file),
        Some(&sidebyside::KIND) => return sidebyside::decode(file),
        _ => {}
    }
    let (head, rest) = file.split_first_chunk::<8>().ok_or("cut head")?;
    let &[kind, zero, row_low, row_high, ref length @ ..] = head;
    let length = u32::from_le_bytes(*length) as usize;
    let (payload, rest) = rest.split_at_checked(length).ok_or("cut payload")?;
    let row_length = u16::from_le_bytes([row_low, row_high]);
    let case = match (kind, zero, row_length) {
        (KIND_READ, 0, _) => Case::Read {
            row_length,
            list: payload.to_vec(),
        },
        (KIND_IDENTITY, 0, 0) => Case::Identity(payload.to_vec()),
        _ => return Err("unknown head"),
    };
    Ok((case, rest))
}

/// The first of every so many cases; the calls on a tree stay with the start
/// before them.
pub fn sampled(cases: Vec<Case>, every: usize) -> Vec<Case> {
    let mut begun = 0;
    let mut sample = cases;
    sample.retain(|case| {
        if !matches!(case, Case::Tree(call) if !matches!(call, Call::Start { .. })) {
            begun += 1;
        }
        begun % every == 1 % every
    });
    sample
}

/// Before a read, the row's element i holds 65535 - i.
pub fn fresh_row(length: u16) -> Vec<u16> {
    (0..length).map(|i| u16::MAX - i).collect()
}

/// A line for each answer, and behind it the text of a script. Only the calls of a tree look back at what came
/// before them.
pub fn answer_lines(cases: &[Case]) -> String {
    let mut player = Player::default();
    cases
        .iter()
        .map(|case| answer_line(case, &mut player) + "\n")
        .collect()
}

fn answer_line(case: &Case, player: &mut Player) -> String {
    match case {
        Case::Read { row_length, list } => read_line(*row_length, list),
        Case::Identity(bytes) => identity_line(bytes),
        Case::Compute { request, room } => computation::line(request, *room),
        Case::Tree(call) => calls::line(call, &player.play(call)),
        Case::Play { script, out_length } => playing::lines(script, *out_length),
        Case::MayOpen(question) => opening::line(question),
        Case::Step { list, place } => opening::step_line(list, *place),
        Case::Evaluate { expression, table } => conditional::evaluate_line(expression, table),
        Case::MayOpenWith { question, table } => conditional::line(question, table),
        Case::Condition { text, out_length } => wording::line(text, *out_length),
        Case::Compare { lists, row_length } => sidebyside::line(lists, *row_length),
    }
}

/// All eight numbers, then the row; the end is the eighth.
fn read_line(row_length: u16, list: &[u8]) -> String {
    let mut row = fresh_row(row_length);
    let answer = reading::read(list, &mut row);
    let offsets = row.iter().map(|&offset| offset.into());
    spaced(answer.eight().into_iter().chain(offsets))
}

fn spaced(numbers: impl IntoIterator<Item = u32>) -> String {
    let words: Vec<String> = numbers.into_iter().map(|n| n.to_string()).collect();
    words.join(" ")
}

fn identity_line(bytes: &[u8]) -> String {
    let (length, buffer) = match Identity::parse(bytes) {
        Some(identity) => (bytes.len(), identity.buffer()),
        None => (0, [0; LONGEST]),
    };
    let number = identity::classify(bytes);
    format!("{number} {length} {}", hex::encode(&buffer))
}

#[cfg(test)]
mod tests {
    use super::*;
    use crate::tree::Start;

    #[test]
    fn records_come_back() {
        let cases = vec![
            Case::read(3, vec![1, 2, 3]),
            Case::Identity(vec![]),
            Case::read(0, vec![]),
        ];
        let file = encode_all(&cases);
        assert_eq!(file[..11], [1, 0, 3, 0, 3, 0, 0, 0, 1, 2, 3]);
        assert_eq!(decode_all(&file).unwrap(), cases);
        for cut in 0..file.len() {
            assert!(decode_all(&file[..cut]).is_err(), "cut at {cut}");
        }
    }

    #[test]
    fn layers_may_be_mixed() {
        let cases = vec![
            Case::Tree(Call::Counts),
            Case::Identity(vec![1]),
            Case::Play {
                script: vec![],
                out_length: 0,
            },
            Case::Tree(Call::Undo),
            Case::Step {
                list: vec![],
                place: 0,
            },
            Case::read(0, vec![]),
        ];
        let file = encode_all(&cases);
        assert_eq!(decode_all(&file).unwrap(), cases);
        assert_eq!(answer_lines(&cases).lines().count(), cases.len());
    }

    #[test]
    fn a_sample_keeps_calls_with_their_start() {
        let start = Call::Start {
            room_length: 0,
            start: Start {
                objects: 1,
                steps: 0,
                rule: 1,
                mapping: [0; 4],
                has_default: 0,
                default_list: vec![],
            },
        };
        let calls = [start.clone(), Call::Undo, start, Call::Counts, Call::Undo];
        let cases: Vec<Case> = calls.map(Case::Tree).to_vec();
        assert_eq!(sampled(cases.clone(), 1), cases);
        assert_eq!(sampled(cases.clone(), 2), cases[..2]);
        let reads = vec![Case::Identity(vec![]), Case::read(0, vec![])];
        assert_eq!(sampled(reads.clone(), 2), reads[..1]);
    }

    #[test]
    fn every_file_has_its_end() {
        assert_eq!(encode_all(&[]), [END]);
        assert_eq!(decode_all(&[END]).unwrap(), []);
        assert!(decode_all(&[]).is_err());
        assert!(decode_all(&[END, END]).is_err());
    }

    #[test]
    fn lines() {
        let empty = vec![2, 0, 8, 0, 0, 0, 0, 0];
        assert_eq!(
            answer_lines(&[Case::read(2, empty)]),
            "0 0 0 8 1 0 0 8 65535 65534\n"
        );
        assert_eq!(answer_lines(&[Case::read(0, vec![])]), "1 0 0 0 0 0 0 0\n");
        let spare = vec![2, 0, 9, 0, 0, 0, 0, 0, 0xFF];
        assert_eq!(answer_lines(&[Case::read(0, spare)]), "0 0 0 9 1 0 0 8\n");
        let zeros = "0".repeat(136);
        assert_eq!(
            answer_lines(&[Case::Identity(vec![])]),
            format!("6 0 {zeros}\n")
        );
        let owner = vec![1, 1, 0, 0, 0, 0, 0, 3, 0, 0, 0, 0];
        assert_eq!(
            answer_lines(&[Case::Identity(owner)]),
            format!("1 12 0101000000000003{}\n", "0".repeat(120))
        );
    }
}
