//! No list, an empty one, and nothing wanted.

use super::bad_held::spoilt_held;
use super::make::{MOST_WANTED, READ, allow, deny, of_entries, of_list, person};
use crate::access::{MOST_HELD, Question};
use crate::cases::build::{creator_sid, list_of_plans, nt_sid, with_spare};
use crate::random::Random;

const SOME_WANTED: [u32; 4] = [0, 1, READ, MOST_WANTED];

pub fn questions(random: &mut Random) -> Vec<Question> {
    let mut questions = without_list(random);
    questions.extend(empty_lists());
    questions.extend(nothing_wanted());
    questions.extend(numbers_that_say_yes());
    questions
}

/// Whatever bytes stand for the list; bad held bytes are refused all the same.
fn without_list(random: &mut Random) -> Vec<Question> {
    let good = of_entries(&[deny(MOST_WANTED)], 0).list;
    let lists = [
        Vec::new(),
        good.clone(),
        good[..9].to_vec(),
        random.bytes(40),
    ];
    let mut questions = Vec::new();
    for wanted in SOME_WANTED {
        for list in &lists {
            let absent = of_list(list.clone(), wanted).without_list();
            questions.push(absent.clone().with_held(Vec::new()));
            questions.push(absent);
        }
        let absent = of_list(good.clone(), wanted).without_list();
        for count in [MOST_HELD, MOST_HELD + 1] {
            questions.push(absent.clone().holding(&vec![nt_sid(&[]); count]));
        }
        let bad = spoilt_held().into_iter();
        questions.extend(bad.map(|held| absent.clone().with_held(held)));
    }
    questions
}

fn empty_lists() -> Vec<Question> {
    let mut questions = Vec::new();
    for revision in [2, 4] {
        let empty = list_of_plans(revision, &[]);
        let spare = with_spare(&empty, &allow(MOST_WANTED).bytes());
        for wanted in SOME_WANTED {
            for list in [&empty, &spare] {
                let question = of_list(list.clone(), wanted);
                questions.push(question.clone().with_held(Vec::new()));
                questions.push(question.clone().holding(&[creator_sid(0)]));
                questions.push(question);
            }
        }
    }
    questions
}

/// Also where every entry would deny.
fn nothing_wanted() -> Vec<Question> {
    let lists = [
        vec![allow(READ)],
        vec![deny(MOST_WANTED)],
        vec![deny(u32::MAX), allow(u32::MAX)],
        vec![allow(0)],
    ];
    let held = [Vec::new(), vec![person()], vec![nt_sid(&[]); MOST_HELD]];
    let mut questions = Vec::new();
    for plans in &lists {
        for sids in &held {
            questions.push(of_entries(plans, 0).holding(sids));
        }
    }
    questions
}

/// Any but 0, also where its lowest byte or half is 0.
fn numbers_that_say_yes() -> Vec<Question> {
    let numbers = [0, 1, 2, 0xFF, 0x100, 0x1_0000, 0x8000_0000, u32::MAX];
    let asked = |has_list| Question {
        has_list,
        ..of_entries(&[deny(READ)], READ)
    };
    numbers.map(asked).to_vec()
}
