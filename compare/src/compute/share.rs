//! Computations whose parts are the same bytes, so that one range can be lent
//! for several of them.

use second::cases::build::{EntryPlan, creator_sid, good_list, nt_sid, with_spare, without_spare};
use second::computing::{Request, setting};
use second::identity;
use second::list::{HEADER_LENGTH, List};
use second::random::Random;

/// Some of the parts follow from others, whatever these are.
pub fn share(random: &mut Random, request: &mut Request) {
    for _ in 0..1 + random.below(3) {
        match random.below(9) {
            0 => share_lists(random, request),
            1 => {
                request.creator = request.parent.clone();
                request.default_list = request.parent.clone();
            }
            2 => put_a_list_into_another(random, request),
            3 => put_lists_behind_each_other(random, request),
            4 | 5 => share_identities(random, request),
            6 => take_types(random, request),
            7 => put_a_list_into_spare_bytes(random, request),
            _ => take_a_mapping(random, request),
        }
    }
}

fn lists(request: &mut Request) -> [&mut Vec<u8>; 3] {
    [
        &mut request.parent,
        &mut request.creator,
        &mut request.default_list,
    ]
}

fn two_of_three(random: &mut Random) -> (usize, usize) {
    let first = random.below(3);
    (first, (first + 1 + random.below(2)) % 3)
}

fn share_lists(random: &mut Random, request: &mut Request) {
    let (from, to) = two_of_three(random);
    let lists = lists(request);
    *lists[to] = lists[from].clone();
}

/// A short list stands in the numbers of a SID of a longer one; both are good.
fn put_a_list_into_another(random: &mut Random, request: &mut Request) {
    let short = short_list(random);
    let numbers: Vec<u32> = words(&short).collect();
    let holding = EntryPlan::plain(random.below(2) as u8, 0x03, nt_sid(&numbers));
    let mut plans: Vec<EntryPlan> = (0..random.below(5))
        .map(|_| EntryPlan::random(random, true))
        .collect();
    plans.insert(random.below(plans.len() + 1), holding);
    let (inner, outer) = two_of_three(random);
    let lists = lists(request);
    *lists[inner] = short;
    *lists[outer] = good_list(&plans);
    // Both are looked at.
    for which in [inner, outer] {
        request.settings |= [setting::PARENT, setting::CREATOR, setting::DEFAULT_LIST][which];
    }
}

/// At most fifteen numbers of a SID.
fn short_list(random: &mut Random) -> Vec<u8> {
    let flags = random.byte() & 0x1F;
    match random.below(4) {
        0 => good_list(&[]),
        1 => good_list(&[EntryPlan::object(5, flags, 1, nt_sid(&[]))]),
        2 => {
            let which = random.below(2) as u32;
            good_list(&[EntryPlan::plain(0, flags, creator_sid(which))])
        }
        _ => {
            let numbers = vec![random.word(); random.below(8)];
            good_list(&[EntryPlan::plain(1, flags, nt_sid(&numbers))])
        }
    }
}

fn words(bytes: &[u8]) -> impl Iterator<Item = u32> {
    let (words, _) = bytes.as_chunks();
    words.iter().map(|&word| u32::from_le_bytes(word))
}

/// One begins where the other does and goes on past its end.
fn put_lists_behind_each_other(random: &mut Random, request: &mut Request) {
    let (short, long) = two_of_three(random);
    let lists = lists(request);
    *lists[long] = [&lists[short][..], &lists[long][..]].concat();
}

/// One stands among the spare bytes of the other, with the owner behind it at
/// times.
fn put_a_list_into_spare_bytes(random: &mut Random, request: &mut Request) {
    let (inner, outer) = two_of_three(random);
    let before = random.below(4);
    let mut spare = random.bytes(before);
    spare.extend(lists(request)[inner].clone());
    if random.chance(1, 2) {
        spare.extend(&request.owner);
    }
    let lists = lists(request);
    if lists[outer].len() >= HEADER_LENGTH {
        *lists[outer] = with_spare(&without_spare(lists[outer]), &spare);
    }
}

/// The same for both, or one that stands in a list.
fn share_identities(random: &mut Random, request: &mut Request) {
    if random.chance(1, 3) {
        let of_lists = ordinary_sids(&request.parent);
        if !of_lists.is_empty() {
            request.owner = random.pick(&of_lists).clone();
        }
    }
    if random.chance(2, 3) {
        request.group = request.owner.clone();
    }
}

fn ordinary_sids(list: &[u8]) -> Vec<Vec<u8>> {
    let Ok(list) = List::parse(list) else {
        return Vec::new();
    };
    let sids = list.entries.iter().map(|entry| entry.sid.to_vec());
    sids.filter(|sid| identity::classify(sid) == 0).collect()
}

/// One GUID of an entry, or both where it has two.
fn take_types(random: &mut Random, request: &mut Request) {
    let which = random.below(3);
    let list = lists(request)[which].clone();
    let Ok(list) = List::parse(&list) else {
        return;
    };
    let guids: Vec<Vec<u8>> = list
        .entries
        .iter()
        .map(|entry| {
            let both = [entry.object_type, entry.inherited_object_type];
            both.into_iter().flatten().flatten().copied().collect()
        })
        .filter(|guids: &Vec<u8>| !guids.is_empty())
        .collect();
    if !guids.is_empty() {
        request.types = random.pick(&guids).clone();
    }
}

/// Four numbers in a row of a list.
fn take_a_mapping(random: &mut Random, request: &mut Request) {
    let which = random.below(3);
    let numbers: Vec<u32> = words(lists(request)[which]).collect();
    if numbers.len() > 4 {
        let at = random.below(numbers.len() - 4);
        request.mapping.copy_from_slice(&numbers[at..at + 4]);
    }
}
