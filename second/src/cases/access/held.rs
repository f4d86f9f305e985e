//! The held SIDs: how many, which, and what only looks like one of them.

use super::make::{READ, allow, deny, of_entries, person, stranger};
use crate::access::{MOST_HELD, Question};
use crate::cases::build::{MOST_NUMBERS, creator_sid, nt_sid, random_sid, sid};
use crate::random::Random;

/// The shortest SID, S-1-5.
fn short() -> Vec<u8> {
    nt_sid(&[])
}

pub fn questions(random: &mut Random) -> Vec<Question> {
    let mut questions = counts();
    questions.extend(repeated());
    questions.extend(placeholders());
    questions.extend(one_byte_differs());
    questions.extend(one_inside_the_other());
    questions.extend(across_two_held());
    questions.extend(every_length(random));
    questions
}

/// The entry names `named`, and allows alone, or denies before an allow.
fn both_ways(named: &[u8], held: &[Vec<u8>]) -> [Question; 2] {
    let granted = [allow(READ).naming(named.to_vec())];
    let denied = [
        deny(READ).naming(named.to_vec()),
        allow(READ).naming(short()),
    ];
    let with_short = [held, &[short()]].concat();
    [
        of_entries(&granted, READ).holding(held),
        of_entries(&denied, READ).holding(&with_short),
    ]
}

/// None to more than are allowed, with the person at each of some places, or
/// at none.
fn counts() -> Vec<Question> {
    let most = MOST_HELD;
    let mut questions = Vec::new();
    for count in [0, 1, 2, 3, most - 1, most, most + 1, most + 2, 2 * most] {
        let others = vec![short(); count];
        questions.push(of_entries(&[allow(READ)], READ).holding(&others));
        questions
            .push(of_entries(&[deny(READ), allow(READ).naming(short())], READ).holding(&others));
        for place in [0, 1, count / 2, count.wrapping_sub(1)] {
            let mut held = others.clone();
            let Some(one) = held.get_mut(place) else {
                continue;
            };
            *one = person();
            questions.push(of_entries(&[allow(READ)], READ).holding(&held));
            questions.push(of_entries(&[deny(READ)], READ).holding(&held));
        }
    }
    // 32 of the longest, and one more.
    let longest: Vec<Vec<u8>> = (0..33)
        .map(|number| nt_sid(&[number; MOST_NUMBERS]))
        .collect();
    let named = longest[31].clone();
    for count in [31, 32, 33] {
        let question = of_entries(&[allow(READ).naming(named.clone())], READ);
        questions.push(question.holding(&longest[..count]));
    }
    questions
}

/// The same one twice counts twice, and does nothing else.
fn repeated() -> Vec<Question> {
    let mut questions = Vec::new();
    for count in [2, 3, MOST_HELD, MOST_HELD + 1] {
        let held = vec![person(); count];
        for plans in [
            vec![allow(READ)],
            vec![deny(READ), allow(READ)],
            vec![allow(READ), deny(READ)],
            vec![allow(READ).naming(stranger())],
        ] {
            questions.push(of_entries(&plans, READ).holding(&held));
        }
    }
    questions
}

/// They match byte for byte, and stand for nobody else.
fn placeholders() -> Vec<Question> {
    let creators: Vec<Vec<u8>> = (0..3).map(creator_sid).collect();
    let mut held: Vec<Vec<Vec<u8>>> = creators.iter().map(|sid| vec![sid.clone()]).collect();
    held.push(creators.clone());
    held.push(vec![person()]);
    held.push(vec![creators[1].clone(), person(), creators[0].clone()]);
    let mut questions = Vec::new();
    for named in creators.iter().chain([&person()]) {
        for held in &held {
            questions.extend(both_ways(named, held));
        }
    }
    questions
}

/// Of the SID that is held, at each byte but the first two, which say what it
/// is.
fn one_byte_differs() -> Vec<Question> {
    let mut questions = Vec::new();
    for named in [person(), nt_sid(&[21, 7, 0x0100_0000, 500])] {
        for place in 2..named.len() {
            for bit in [0x01, 0x80] {
                let mut near = named.clone();
                near[place] ^= bit;
                let [granted, denied] = both_ways(&named, &[near]);
                questions.push(if bit == 1 { granted } else { denied });
            }
        }
    }
    questions
}

/// Numbers that go on, or are bytes of another SID.
fn one_inside_the_other() -> Vec<Question> {
    let domain = nt_sid(&[21, 1, 2]);
    let mut numbers: Vec<Vec<u8>> = (0..=4)
        .map(|count| nt_sid(&[21, 1, 2, 3][..count]))
        .collect();
    // Its last twelve bytes are the person's.
    numbers.push(sid([0; 6], &words(&person())));
    numbers.push(nt_sid(&[&words(&person())[..], &[0]].concat()));
    numbers.push(nt_sid(&[18, 0]));
    numbers.push(nt_sid(&[0, 18]));
    let mut questions = Vec::new();
    for one in &numbers {
        for other in [&domain, &person()] {
            questions.extend(both_ways(one, std::slice::from_ref(other)));
            questions.extend(both_ways(other, std::slice::from_ref(one)));
        }
    }
    questions
}

fn words(bytes: &[u8]) -> Vec<u32> {
    let (words, _) = bytes.as_chunks();
    words.iter().map(|&word| u32::from_le_bytes(word)).collect()
}

/// The named SID's bytes begin in one held SID and end in the next.
fn across_two_held() -> Vec<Question> {
    let first = nt_sid(&[9, 0x0000_0101]);
    let across = [&first[12..], &short()].concat();
    assert_eq!(across, sid([0, 0, 1, 0, 0, 0], &[0x0500_0000]));
    let held = [first, short()];
    let mut questions = both_ways(&across, &held).to_vec();
    questions.extend(both_ways(&across, &[&held[..], &[across.clone()]].concat()));
    questions
}

/// SIDs of none to fifteen numbers, behind one of another length.
fn every_length(random: &mut Random) -> Vec<Question> {
    let mut questions = Vec::new();
    for numbers in 0..=MOST_NUMBERS {
        let named = random_sid(random, numbers);
        let before = random_sid(random, MOST_NUMBERS - numbers);
        questions.extend(both_ways(&named, &[before.clone(), named.clone()]));
        questions.extend(both_ways(&named, &[before]));
    }
    questions
}
