mod conditional;
mod masks;

use super::*;
use crate::cases::inherit::worked;
use crate::hex;

const SYSTEM: &str = "01 01 000000000005 12000000";
const CREATOR_OWNER: &str = "01 01 000000000003 00000000";
const CREATOR_GROUP: &str = "01 01 000000000003 01000000";
const GUID: &str = "00112233445566778899AABBCCDDEEFF";
const OTHER_GUID: &str = "FFEEDDCCBBAA99887766554433221100";
const EMPTY: &str = "02 00 08 00 00 00 00 00";

/// As document 01 prints it: by rule 1.
const K1_BY_RULE_1: &str = "02 00 30 00 02 00 00 00 \
    00 10 14 00 89 00 12 80 01 01 00 00 00 00 00 05 12 00 00 00 \
    00 1B 14 00 89 00 12 80 01 01 00 00 00 00 00 05 12 00 00 00";
/// With document 02's mask 00120089: by rule 2.
const K1_BY_RULE_2: &str = "02 00 30 00 02 00 00 00 \
    00 10 14 00 89 00 12 00 01 01 00 00 00 00 00 05 12 00 00 00 \
    00 1B 14 00 89 00 12 00 01 01 00 00 00 00 00 05 12 00 00 00";

fn bytes(text: &str) -> Vec<u8> {
    hex::decode(text).unwrap()
}

/// The eight numbers and the list, after a look at the room's other bytes.
fn run(request: &Request) -> ([u32; 8], Vec<u8>) {
    let mut room = vec![0xEE; 400];
    let answer = compute(request, &mut room);
    let rest = room.split_off(answer.length as usize);
    assert!(rest.iter().all(|&byte| byte == 0xEE));
    (answer.eight(), room)
}

#[track_caller]
fn assert_done(request: &Request, list: &str, count: u32, control: u32) {
    let list = bytes(list);
    let numbers = [0, 0, 0, list.len() as u32, 1, count, control, 0];
    assert_eq!(run(request), (numbers, list));
}

#[track_caller]
fn assert_done_by_either_rule(request: Request, list: &str, count: u32) {
    for rule in [1, 2] {
        assert_done(&request.clone().with_rule(rule), list, count, 0);
    }
}

/// Lists by rule 1 and by rule 2.
#[track_caller]
fn assert_done_by_rules(request: Request, lists: [&str; 2], count: u32) {
    for (rule, list) in [1, 2].into_iter().zip(lists) {
        assert_done(&request.clone().with_rule(rule), list, count, 0);
    }
}

#[track_caller]
fn assert_refused(request: &Request, number: u32, list: u32, offset: u32) {
    let numbers = [number, list, offset, 0, 0, 0, 0, 0];
    assert_eq!(run(request), (numbers, Vec::new()));
}

const K1_BY_RULES: [&str; 2] = [K1_BY_RULE_1, K1_BY_RULE_2];

/// One entry: allow, the mask 00120089, S-1-5-18.
fn one_entry(flags: &str) -> String {
    format!("02 00 1C 00 01 00 00 00  00 {flags} 14 00 89 00 12 00 {SYSTEM}")
}

/// The same, with the generic bit that rule 1 leaves.
fn one_entry_by_rule_1(flags: &str) -> String {
    format!("02 00 1C 00 01 00 00 00  00 {flags} 14 00 89 00 12 80 {SYSTEM}")
}

#[track_caller]
fn assert_one_entry_by_rules(request: Request, flags: &str) {
    let lists = [one_entry_by_rule_1(flags), one_entry(flags)];
    assert_done_by_rules(request, lists.each_ref().map(String::as_str), 1);
}

#[test]
fn k1_container_without_creator() {
    assert_done_by_rules(worked::k1(), K1_BY_RULES, 2);
    let parent = "02 00 1C 00 01 00 00 00 \
        00 03 14 00 00 00 00 80 01 01 00 00 00 00 00 03 00 00 00 00";
    assert_eq!(worked::k1().parent, bytes(parent));
}

#[test]
fn k2_not_a_container() {
    assert_one_entry_by_rules(worked::k2(), "10");
}

#[test]
fn k3_to_k5_other_flags_in_the_parent() {
    assert_one_entry_by_rules(worked::k3(), "10");
    assert_one_entry_by_rules(worked::k4(), "19");
    assert_done_by_rules(worked::k5(), K1_BY_RULES, 2);
}

#[test]
fn k6_absent() {
    for rule in [1, 2] {
        let request = worked::k6().with_rule(rule);
        assert_eq!(run(&request), ([0; 8], Vec::new()));
        assert_eq!(compute(&request, &mut []), Answer::default());
    }
}

#[test]
fn k7_to_k9_beside_a_creator() {
    let creators = format!("00 00 14 00 01 00 00 00 {SYSTEM}");
    assert_done(&worked::k7(), EMPTY, 0, 0);
    assert_done(
        &worked::k8(),
        &format!("02 00 1C 00 01 00 00 00 {creators}"),
        1,
        0,
    );
    let k1_entries = &K1_BY_RULE_2[K1_BY_RULE_2.find("00 10").unwrap()..];
    let all_three = format!("02 00 44 00 03 00 00 00 {creators} {k1_entries}");
    assert_done(&worked::k9(), &all_three, 3, 0x0400);
}

#[test]
fn k10_protected_without_creator() {
    assert_done_by_rules(worked::k10(), K1_BY_RULES, 2);
}

#[test]
fn k11_placeholders_are_no_owner_and_no_group() {
    assert_refused(&worked::k11(), 6, 0, 0);
    for placeholder in [CREATOR_OWNER, CREATOR_GROUP] {
        let owner = bytes(placeholder);
        let group = owner.clone();
        assert_refused(
            &Request {
                owner,
                ..worked::k1()
            },
            6,
            0,
            0,
        );
        assert_refused(
            &Request {
                group,
                ..worked::k6()
            },
            6,
            0,
            0,
        );
    }
}

#[test]
fn k12_rooms() {
    for (rule, list) in [1, 2].into_iter().zip(K1_BY_RULES) {
        let request = worked::k12().with_rule(rule);
        let mut room = [0xEE; 47];
        let refused = compute(&request, &mut room);
        assert_eq!(refused.eight(), [8, 0, 0, 0, 0, 0, 0, 0]);
        assert_eq!(room, [0xEE; 47]);
        let mut room = [0xEE; 48];
        let done = compute(&request, &mut room);
        assert_eq!(done.eight(), [0, 0, 0, 48, 1, 2, 0, 0]);
        assert_eq!(room[..], bytes(list));
    }
}

#[test]
fn rule_1_with_automatic_inheritance_keeps_the_parents_part() {
    assert_done(&worked::k9().with_rule(1), K1_BY_RULE_1, 2, 0x0400);
    let protected = worked::k9().with_rule(1).with(setting::PROTECTED);
    assert_done(&protected, EMPTY, 0, 0);
}

#[test]
fn a_default_descriptor_leaves_the_creator_out() {
    let request = worked::k9().with(setting::DEFAULT_DESCRIPTOR);
    assert_done_by_rules(request, K1_BY_RULES, 2);
}

#[test]
fn a_default_descriptor_counts_where_nothing_is_inheritable() {
    let request = worked::k6()
        .with_creator(bytes(&one_entry("08")))
        .with(setting::DEFAULT_DESCRIPTOR);
    assert_done_by_either_rule(request, &one_entry("08"), 1);
}

#[test]
fn inheritable_entries_that_do_not_apply_leave_an_empty_list() {
    let parent = format!("02 00 1C 00 01 00 00 00  00 02 14 00 89 00 12 80 {SYSTEM}");
    let default_list = bytes(&one_entry("00"));
    let request = worked::k2()
        .with_parent(bytes(&parent))
        .with_default(default_list);
    assert_done_by_either_rule(request.clone(), EMPTY, 0);
    let automatic = request
        .with_creator(bytes(EMPTY))
        .with(setting::AUTO_INHERIT);
    assert_done(&automatic.clone().with_rule(1), EMPTY, 0, 0x0400);
    assert_done(&automatic.with_rule(2), EMPTY, 0, 0x0400);
}

#[test]
fn empty_lists_are_not_absent() {
    assert_done_by_either_rule(worked::k6().with_default(bytes(EMPTY)), EMPTY, 0);
    assert_done_by_either_rule(worked::k6().with_creator(bytes(EMPTY)), EMPTY, 0);
    let beside = worked::k1().with_creator(bytes(EMPTY));
    assert_done_by_either_rule(beside, EMPTY, 0);
}

#[test]
fn own_entries_drop_inherited_ones_and_the_default_list_keeps_them() {
    let list = format!(
        "04 00 44 00 03 00 00 00 \
         01 12 14 00 01 00 00 00 {SYSTEM} \
         00 0F 14 00 02 00 00 20 {CREATOR_GROUP} \
         00 18 14 00 03 00 00 00 {CREATOR_OWNER}"
    );
    let request = Request {
        group: bytes("01 00 000000000001"),
        ..worked::k6()
    };
    for (rule, mask) in [(1, "A2 00 12 20"), (2, "A2 00 12 00")] {
        let request = request.clone().with_rule(rule);
        let own = format!("02 00 18 00 01 00 00 00  00 0F 10 00 {mask} 01 00 000000000001");
        assert_done(&request.clone().with_creator(bytes(&list)), &own, 1, 0);
        let kept = format!(
            "02 00 40 00 03 00 00 00 \
             01 12 14 00 01 00 00 00 {SYSTEM} \
             00 0F 10 00 {mask} 01 00 000000000001 \
             00 18 14 00 03 00 00 00 {SYSTEM}"
        );
        assert_done(&request.with_default(bytes(&list)), &kept, 3, 0);
    }
}

/// With bytes behind it, inside the stated size.
fn with_spare(list: Vec<u8>, spare: &[u8]) -> Vec<u8> {
    let mut list = [&list[..], spare].concat();
    let length = list.len() as u16;
    list[2..4].copy_from_slice(&length.to_le_bytes());
    list
}

#[test]
fn spare_bytes_of_any_list_change_nothing() {
    let entry = &bytes(&one_entry("03"))[8..];
    for spare in [&[0][..], &[0xFF; 3], entry, &[7, 0, 4, 0]] {
        let roomy = |list: Vec<u8>| with_spare(list, spare);
        let k9 = worked::k9();
        let both = k9
            .clone()
            .with_parent(roomy(k9.parent.clone()))
            .with_creator(roomy(k9.creator.clone()))
            .with_default(roomy(bytes(EMPTY)));
        assert_eq!(run(&both), run(&k9));
        let default_list = bytes(&one_entry("1B"));
        let request = worked::k6().with_default(roomy(default_list));
        assert_done_by_either_rule(request, &one_entry("1B"), 1);
        let request = worked::k6().with_creator(roomy(bytes(EMPTY)));
        assert_done_by_either_rule(request, EMPTY, 0);
    }
}

/// Document 01's parent with a count of 0: its entry would be inherited.
#[test]
fn hidden_entries_are_not_there() {
    let hidden = |list: Vec<u8>| [&list[..4], &[0], &list[5..]].concat();
    let request = worked::k1().with_parent(hidden(worked::k1().parent));
    for rule in [1, 2] {
        let request = request.clone().with_rule(rule);
        assert_eq!(run(&request), ([0; 8], Vec::new()));
    }
    let default_list = bytes(&one_entry("00"));
    let with_default = request.clone().with_default(default_list.clone());
    assert_done_by_either_rule(with_default, &one_entry("00"), 1);
    let of_creator = request.clone().with_creator(hidden(default_list.clone()));
    assert_done_by_either_rule(of_creator, EMPTY, 0);
    assert_done_by_either_rule(request.with_default(hidden(default_list)), EMPTY, 0);
}

#[test]
fn a_bad_entry_is_refused_before_spare_bytes() {
    let bad = with_spare(bytes(&one_entry("20")), &[0; 5]);
    assert_refused(&worked::k1().with_parent(bad.clone()), 4, 1, 8);
    assert_refused(&worked::k1().with_creator(bad.clone()), 4, 2, 8);
    assert_refused(&worked::k1().with_default(bad), 4, 3, 8);
}

/// Flags 03: with an ObjectType, with an InheritedObjectType, with both.
fn object_parent() -> Vec<u8> {
    bytes(&format!(
        "04 00 90 00 03 00 00 00 \
         05 03 28 00 01 00 00 00 01000000 {GUID} {SYSTEM} \
         05 03 28 00 02 00 00 00 02000000 {GUID} {SYSTEM} \
         06 03 38 00 03 00 00 00 03000000 {OTHER_GUID} {GUID} {CREATOR_OWNER}"
    ))
}

#[test]
fn object_entries_by_their_object_type() {
    let request = Request {
        types: bytes(GUID),
        ..worked::k2().with_parent(object_parent())
    };
    let first =
        format!("04 00 30 00 01 00 00 00  05 10 28 00 01 00 00 00 01000000 {GUID} {SYSTEM}");
    assert_done_by_either_rule(request.clone(), &first, 1);
    let others = Request {
        types: bytes(&format!("{OTHER_GUID}{OTHER_GUID}")),
        ..request.clone()
    };
    let third = format!(
        "04 00 40 00 01 00 00 00 \
         06 10 38 00 03 00 00 00 03000000 {OTHER_GUID} {GUID} {SYSTEM}"
    );
    assert_done_by_either_rule(others, &third, 1);
    let none = Request {
        types: Vec::new(),
        ..request
    };
    assert_done_by_either_rule(none, EMPTY, 0);
}

#[test]
fn the_second_part_asks_for_no_type() {
    let request = worked::k1().with_parent(object_parent());
    let list = format!(
        "04 00 90 00 03 00 00 00 \
         05 1B 28 00 01 00 00 00 01000000 {GUID} {SYSTEM} \
         05 1B 28 00 02 00 00 00 02000000 {GUID} {SYSTEM} \
         06 1B 38 00 03 00 00 00 03000000 {OTHER_GUID} {GUID} {SYSTEM}"
    );
    assert_done_by_either_rule(request, &list, 3);
}

#[test]
fn near_placeholders_stay() {
    for sid in ["01 01 000000000003 02000000", "01 01 030000000000 00000000"] {
        let list = format!("02 00 1C 00 01 00 00 00  00 00 14 00 00 00 00 00 {sid}");
        assert_done_by_either_rule(worked::k6().with_default(bytes(&list)), &list, 1);
    }
}

#[test]
fn absent_lists_and_unknown_settings_are_not_looked_at() {
    let request = Request {
        creator: vec![0xFF; 9],
        default_list: vec![0xFF],
        ..worked::k1().with(!setting::ALL)
    };
    assert_done_by_rules(request, K1_BY_RULES, 2);
}

/// Bad at every stage; then each stage is made good in turn.
#[test]
fn refusals_in_order() {
    let bad_sid = || bytes(&one_entry("03").replacen("01 01", "02 01", 1));
    let mut request = Request {
        types: vec![0; 15],
        owner: Vec::new(),
        group: bytes(CREATOR_GROUP),
        ..worked::k1()
    }
    .with_rule(3)
    .with_parent(bad_sid())
    .with_creator(bytes(&one_entry("20")))
    .with_default(Vec::new());
    assert_refused(&request, 12, 0, 0);
    request.rule = 1;
    assert_refused(&request, 5, 1, 8);
    request.parent = bytes(EMPTY);
    assert_refused(&request, 4, 2, 8);
    request.creator = bytes(EMPTY);
    // Tested even where the branch would never use it.
    assert_refused(&request, 1, 3, 0);
    request.default_list = bytes(EMPTY);
    assert_refused(&request, 6, 0, 0);
    request.owner = bytes(SYSTEM);
    assert_refused(&request, 6, 0, 0);
    request.group = bytes(SYSTEM);
    assert_refused(&request, 7, 0, 0);
    request.types = vec![0; 64];
    let refused = compute(&request, &mut [0; 7]);
    assert_eq!(refused.eight(), [8, 0, 0, 0, 0, 0, 0, 0]);
    assert_done(&request, EMPTY, 0, 0);
}

#[test]
fn lengths_of_types() {
    for (length, number) in [(0, 0), (1, 7), (16, 0), (17, 7), (64, 0), (65, 7), (80, 7)] {
        let request = Request {
            types: vec![0; length],
            ..worked::k6()
        };
        assert_eq!(run(&request).0[0], number, "{length}");
    }
}

#[test]
fn results_of_at_most_65532_bytes() {
    let entry = |numbers: u8| {
        let size = 8 + 8 + 4 * numbers;
        let mut entry = vec![0, 0, size, 0, 0, 0, 0, 0, 1, numbers, 0, 0, 0, 0, 0, 5];
        entry.resize(usize::from(size), 0);
        entry
    };
    let placeholder = bytes(&format!("00 00 14 00 00000000 {CREATOR_OWNER}"));
    // 8 + 861 * 76 + 20 + 68 = 65,532
    let mut list = bytes("02 00 FC FF 5F 03 00 00");
    list.extend(placeholder);
    list.extend(entry(15).repeat(861));
    list.extend(entry(13));
    let request = worked::k6().with_default(list);
    let mut room = vec![0; 66_000];
    assert_eq!(
        compute(&request, &mut room).eight(),
        [0, 0, 0, 65_532, 1, 863, 0, 0]
    );
    // A longer list is an input like any other: 65,532 limits results alone.
    for spare in 1..=3 {
        let default_list = with_spare(request.default_list.clone(), &vec![0xFF; spare]);
        assert_eq!(default_list.len(), 65_532 + spare);
        let done = compute(&request.clone().with_default(default_list), &mut room);
        assert_eq!(done.eight(), [0, 0, 0, 65_532, 1, 863, 0, 0]);
    }
    let longer_owner = Request {
        owner: bytes("01 02 000000000005 12000000 00000000"),
        ..request
    };
    assert_eq!(try_compute(&longer_owner, &mut room), Err(Refused::TooLong));
    assert_eq!(compute(&longer_owner, &mut room).number, 8);
}
