//! How the parts of a computation are lent, and which of them are one range.

use crate::capi::WhenEmpty;
use crate::capi::lending::{Lending, Shared};
use crate::report::Report;
use second::computing::{Request, setting};
use second::list::spare_bytes;
use second::random::Random;

pub fn lending(random: &mut Random, lent: &Request, together: bool) -> Lending {
    let when_empty = WhenEmpty::draw(random);
    if !together {
        return Lending::apart(when_empty);
    }
    let parts: [&[u8]; 6] = [
        &lent.parent,
        &lent.creator,
        &lent.default_list,
        &lent.types,
        &lent.owner,
        &lent.group,
    ];
    Lending::together(when_empty, &parts, Some(lent.mapping))
}

/// By the lists that are looked at alone.
pub fn count_shared(report: &mut Report, lending: &Lending, lent: &Request) {
    if lending.is_apart() {
        return;
    }
    let lists = looked_at(lent);
    let of_lists = pairs(&lists).map(|(one, other)| lending.shared(one, other));
    let of_lists: Vec<Shared> = of_lists.collect();
    let same = of_lists.iter().filter(|&&shared| shared == Shared::Whole);
    let same = same.count();
    let in_a_list = |part: &[u8]| {
        let mut lists = lists.iter();
        lists.any(|list| lending.shared(list, part) != Shared::Nothing)
    };
    let has_mapping =
        |list: &&[u8]| lending.shared_with_mapping(list, lent.mapping) != Shared::Nothing;
    let in_spare_bytes =
        |inner: &[u8], outer: &[u8]| lending.lies_in_the_end(inner, outer, spare_bytes(outer));
    let either_in_spare_bytes =
        |(one, other)| in_spare_bytes(one, other) || in_spare_bytes(other, one);
    let of_identities = lending.shared(&lent.owner, &lent.group);
    let found = [
        ("one range for two lists", same == 1),
        ("one range for three lists", same == 3),
        ("a list in a longer one", of_lists.contains(&Shared::Part)),
        (
            "a list in another's spare bytes",
            pairs(&lists).any(either_in_spare_bytes),
        ),
        (
            "one range for owner and group",
            of_identities == Shared::Whole,
        ),
        ("an owner in a list", in_a_list(&lent.owner)),
        ("types in a list", in_a_list(&lent.types)),
        ("a mapping in a list", lists.iter().any(has_mapping)),
    ];
    for (what, _) in found.into_iter().filter(|&(_, yes)| yes) {
        report.add_branch(what);
    }
}

fn looked_at(lent: &Request) -> Vec<&[u8]> {
    let lists = [
        (setting::PARENT, &lent.parent),
        (setting::CREATOR, &lent.creator),
        (setting::DEFAULT_LIST, &lent.default_list),
    ];
    let present = lists.into_iter().filter(|&(bit, _)| lent.has(bit));
    present.map(|(_, list)| &list[..]).collect()
}

fn pairs<'a>(lists: &'a [&'a [u8]]) -> impl Iterator<Item = (&'a [u8], &'a [u8])> {
    let firsts = lists.iter().enumerate();
    firsts.flat_map(|(at, &one)| lists[at + 1..].iter().map(move |&other| (one, other)))
}
