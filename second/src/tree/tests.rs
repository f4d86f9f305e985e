use super::*;
use crate::hex;

const SYSTEM: &str = "01 01 000000000005 12000000";
const CREATOR_OWNER: &str = "01 01 000000000003 00000000";
const CREATOR_GROUP: &str = "01 01 000000000003 01000000";
const EMPTY: &str = "02 00 08 00 00 00 00 00";
/// Document 01's parent.
const PARENT: &str = "02 00 1C 00 01 00 00 00 \
    00 03 14 00 00 00 00 80 01 01 00 00 00 00 00 03 00 00 00 00";
/// What it becomes as the root's own list.
const ROOTS: &str = "02 00 1C 00 01 00 00 00 \
    00 03 14 00 89 00 12 00 01 01 00 00 00 00 00 05 12 00 00 00";
const K1: &str = "02 00 30 00 02 00 00 00 \
    00 10 14 00 89 00 12 00 01 01 00 00 00 00 00 05 12 00 00 00 \
    00 1B 14 00 89 00 12 00 01 01 00 00 00 00 00 05 12 00 00 00";
/// By rule 1 the generic bit stays.
const K1_BY_RULE_1: &str = "02 00 30 00 02 00 00 00 \
    00 10 14 00 89 00 12 80 01 01 00 00 00 00 00 05 12 00 00 00 \
    00 1B 14 00 89 00 12 80 01 01 00 00 00 00 00 05 12 00 00 00";
/// One entry that nothing inherits.
const PLAIN: &str = "02 00 1C 00 01 00 00 00 \
    00 00 14 00 01 00 00 00 01 01 00 00 00 00 00 05 12 00 00 00";
const GUID: [u8; 16] = [7; 16];

const CONTAINER: u32 = traits::CONTAINER;
const PROTECTED: u32 = traits::PROTECTED;
const OWN_LIST: u32 = traits::OWN_LIST;

fn bytes(text: &str) -> Vec<u8> {
    hex::decode(text).unwrap()
}

fn start(objects: u32, steps: u32) -> Start {
    Start {
        objects,
        steps,
        rule: 2,
        mapping: [0x0012_0089, 0x0012_0116, 0x0012_00A0, 0x001F_01FF],
        has_default: 0,
        default_list: Vec::new(),
    }
}

fn started(start: &Start) -> Tree {
    Tree::start(room(start.objects, start.steps), start).unwrap()
}

fn tree(objects: u32, steps: u32) -> Tree {
    started(&start(objects, steps))
}

/// Owner and group are S-1-5-18.
fn add(parent: u32, traits: u32, list: &str) -> Change {
    Change::Add(Add {
        parent,
        traits,
        object_type: GUID,
        owner: bytes(SYSTEM),
        group: bytes(SYSTEM),
        list: bytes(list),
    })
}

fn root(list: &str) -> Change {
    add(NO_PARENT, CONTAINER | OWN_LIST, list)
}

fn set_list(object: u32, list: &str) -> Change {
    Change::SetList {
        object,
        has_list: 1,
        list: bytes(list),
    }
}

fn remove_list(object: u32) -> Change {
    Change::SetList {
        object,
        has_list: 0,
        list: bytes("FF"),
    }
}

fn set_mark(object: u32, mark: u32) -> Change {
    Change::SetMark { object, mark }
}

fn set_owner(object: u32, owner: &str, group: &str) -> Change {
    Change::SetOwner {
        object,
        owner: bytes(owner),
        group: bytes(group),
    }
}

/// Entries with S-1-5 and 15 numbers, 76 bytes each, that all objects inherit.
fn long_entries(count: usize) -> String {
    let entry = format!(
        "00 03 4C 00 01 00 00 00 01 0F 000000000005 {}",
        "09000000".repeat(15)
    );
    let length = hex::encode(&(8 + 76 * count as u16).to_le_bytes());
    format!(
        "02 00 {length} {count:02X} 00 00 00 {}",
        entry.repeat(count)
    )
}

fn answer(result: Result<Answer, Refused>) -> [u32; 8] {
    match result {
        Ok(answer) => answer.eight(),
        Err(refused) => refused.answer().eight(),
    }
}

#[track_caller]
fn assert_done(tree: &mut impl Calls, change: Change, length: u32, present: u32, count: u32) {
    let expected = [0, 0, 0, length, present, count, 0, 0];
    assert_eq!(answer(tree.change(&change)), expected);
}

/// Refused changes leave everything as it was.
#[track_caller]
fn assert_refused(tree: &mut Tree, change: Change, number: u32, list: u32, offset: u32) {
    let before = tree.clone();
    let expected = [number, list, offset, 0, 0, 0, 0, 0];
    assert_eq!(answer(tree.change(&change)), expected);
    assert_eq!(tree.objects(), before.objects());
    assert_eq!(tree.counts(), before.counts());
}

#[track_caller]
fn assert_list(tree: &Tree, number: usize, list: &str) {
    let mut out = [0xEE; 1_024];
    let answer = tree.read_back(Part::List, number as u32, &mut out).unwrap();
    let list = bytes(list);
    assert_eq!((answer.length, answer.present), (list.len() as u32, 1));
    assert_eq!(out[..list.len()], list);
    assert!(out[list.len()..].iter().all(|&byte| byte == 0xEE));
}

#[track_caller]
fn assert_counts(tree: &Tree, objects: u32, steps: u32) {
    assert_eq!(tree.counts().eight(), [0, 0, 0, objects, 1, steps, 0, 0]);
}

#[test]
fn the_formula() {
    assert_eq!(room(16, 16), 55_400);
    assert_eq!(room(64, 64), 218_456);
    assert_eq!(room(1, 0), 3_259);
    for (objects, steps) in [(0, 0), (65, 0), (1, 65), (257, 1), (1, 256), (u32::MAX, 0)] {
        assert_eq!(room(objects, steps), 0, "{objects} {steps}");
    }
}

#[test]
fn the_scripts_example() {
    let mut tree = tree(16, 16);
    assert_done(&mut tree, root(PARENT), 28, 1, 1);
    assert_done(&mut tree, add(0, CONTAINER, ""), 48, 1, 2);
    assert_list(&tree, 0, ROOTS);
    assert_list(&tree, 1, K1);
    assert_counts(&tree, 2, 2);
}

#[test]
fn reading_back() {
    let mut tree = tree(4, 4);
    tree.change(&root(PARENT)).unwrap();
    tree.change(&add(0, PROTECTED | !traits::ALL, "")).unwrap();
    let mut out = [0xEE; 60];
    let own = tree.read_back(Part::Own, 0, &mut out).unwrap();
    // As it was given, not as it is computed.
    assert_eq!(own.eight(), [0, 0, 0, 28, 1, 1, 0, 0]);
    assert_eq!(out[..28], bytes(PARENT));
    let data = tree.read_back(Part::Data, 1, &mut out).unwrap();
    assert_eq!(data.eight(), [0, 0, 0, 45, 1, 0, 0, 0]);
    let expected = format!("00 00 01 {} 0C {SYSTEM} 0C {SYSTEM} EE", "07".repeat(16));
    assert_eq!(out[..46], bytes(&expected));
    tree.read_back(Part::Data, 0, &mut out).unwrap();
    assert_eq!(out[..4], [0xFF, 1, 0, 7]);

    let mut short = [0xEE; 44];
    assert_eq!(
        tree.read_back(Part::Data, 1, &mut short),
        Err(Refused::OutTooShort)
    );
    assert_eq!(
        tree.read_back(Part::List, 1, &mut short[..27]),
        Err(Refused::OutTooShort)
    );
    assert_eq!(short, [0xEE; 44]);
    assert_eq!(tree.read_back(Part::Own, 1, &mut []), Ok(Answer::default()));
    for part in Part::ALL {
        for object in [2, 0xFF, NO_PARENT] {
            assert_eq!(
                tree.read_back(part, object, &mut []),
                Err(Refused::NoSuchObject)
            );
        }
    }
}

#[test]
fn absent_and_empty_lists() {
    let mut tree = tree(4, 4);
    assert_done(&mut tree, add(NO_PARENT, CONTAINER, "FF"), 0, 0, 0);
    assert_done(&mut tree, add(0, 0, ""), 0, 0, 0);
    assert_done(&mut tree, set_list(1, EMPTY), 8, 1, 0);
    assert_done(&mut tree, remove_list(1), 0, 0, 0);
    // Nothing inherits the entry of the root, so the child has no list.
    assert_done(&mut tree, set_list(0, PLAIN), 28, 1, 1);
    assert_eq!(tree.list(1), None);
}

#[test]
fn the_default_list_serves_every_object() {
    let default_list = bytes(PARENT);
    let mut tree = started(&Start {
        has_default: 2,
        default_list,
        ..start(4, 4)
    });
    assert_done(&mut tree, add(NO_PARENT, CONTAINER, ""), 28, 1, 1);
    // The root's list is inherited: no default for the child.
    assert_done(&mut tree, add(0, CONTAINER, ""), 48, 1, 2);
    assert_done(&mut tree, set_list(0, PLAIN), 28, 1, 1);
    assert_list(&tree, 1, ROOTS);
    let other_owner = PARENT.replace("00 03 00 00 00 00", "00 05 13 00 00 00");
    let mapped = other_owner.replace("00 00 00 80", "89 00 12 00");
    assert_done(
        &mut tree,
        set_owner(1, "01 01 000000000005 13000000", SYSTEM),
        28,
        1,
        1,
    );
    assert_list(&tree, 1, &mapped);
}

/// The root's own list grants 10000000 to S-1-5-18, and to all below.
#[test]
fn full_control_comes_down() {
    let granted = PARENT
        .replace("00 00 00 80", "00 00 00 10")
        .replace("00 03 00 00 00 00", "00 05 12 00 00 00");
    for (rule, mask) in [(1, "00 00 00 10"), (2, "FF 01 1F 00")] {
        let mut tree = started(&Start {
            rule,
            ..start(4, 4)
        });
        tree.change(&root(&granted)).unwrap();
        tree.change(&add(0, CONTAINER, "")).unwrap();
        tree.change(&add(1, CONTAINER, "")).unwrap();
        let roots = granted.replace("00 00 00 10", mask);
        assert_list(&tree, 0, &roots);
        let below = K1.replace("89 00 12 00", mask);
        assert_list(&tree, 1, &below);
        assert_list(&tree, 2, &below);
    }
}

/// By rule 1 a generic bit that a mapping brought in joins its own mapping one
/// level below; by rule 2 it is gone by then.
#[test]
fn generic_bits_brought_in_reach_no_level_below_by_rule_2() {
    let masks = [
        (1, ["01 00 00 C0", "03 00 00 C0"]),
        (2, ["01 00 00 00", "01 00 00 00"]),
    ];
    for (rule, [roots, below]) in masks {
        let mut tree = started(&Start {
            rule,
            mapping: [0x4000_0001, 2, 4, 8],
            ..start(4, 4)
        });
        tree.change(&root(PARENT)).unwrap();
        tree.change(&add(0, CONTAINER, "")).unwrap();
        assert_list(&tree, 0, &ROOTS.replace("89 00 12 00", roots));
        assert_list(&tree, 1, &K1.replace("89 00 12 00", below));
    }
}

#[test]
fn marks_and_rules() {
    for (rule, marked, not_marked, k1) in [
        (1, (8, 0), (48, 2), K1_BY_RULE_1),
        (2, (28, 1), (68, 3), K1),
    ] {
        let mut tree = started(&Start {
            rule,
            ..start(2, 9)
        });
        tree.change(&root(PARENT)).unwrap();
        let protected = add(0, CONTAINER | PROTECTED | OWN_LIST, PLAIN);
        assert_done(&mut tree, protected, marked.0, 1, marked.1);
        assert_done(&mut tree, set_mark(1, 0), not_marked.0, 1, not_marked.1);
        assert_done(&mut tree, set_mark(1, 0x100), marked.0, 1, marked.1);
        tree.undo().unwrap();
        assert_eq!(tree.list(1).unwrap().len() as u32, not_marked.0);
        // Without an own list the mark changes nothing.
        assert_done(&mut tree, remove_list(1), 48, 1, 2);
        assert_done(&mut tree, set_mark(1, 1), 48, 1, 2);
        assert_list(&tree, 1, k1);
    }
}

#[test]
fn the_objects_type_is_the_one_object_type() {
    let sixteen_sevens = "07".repeat(16);
    let entry = format!("05 03 28 00 01 00 00 00 01000000 {sixteen_sevens} {SYSTEM}");
    let mut tree = tree(3, 3);
    tree.change(&root(&format!("04 00 30 00 01 00 00 00 {entry}")))
        .unwrap();
    assert_done(&mut tree, add(0, 0, ""), 48, 1, 1);
    let Change::Add(other_type) = add(0, 0, "") else {
        unreachable!()
    };
    let other_type = Add {
        object_type: [8; 16],
        ..other_type
    };
    assert_done(&mut tree, Change::Add(other_type), 8, 1, 0);
}

#[test]
fn undo_works_out_every_list_again() {
    let mut tree = tree(4, 16);
    tree.change(&root(PARENT)).unwrap();
    tree.change(&add(0, CONTAINER, "")).unwrap();
    tree.change(&add(1, CONTAINER, "")).unwrap();
    assert_list(&tree, 2, K1);
    tree.change(&remove_list(0)).unwrap();
    assert_eq!(
        (0..3).map(|n| tree.list(n)).collect::<Vec<_>>(),
        [None, None, None]
    );
    assert_eq!(tree.undo(), Ok(Answer::default()));
    assert_list(&tree, 0, ROOTS);
    assert_list(&tree, 1, K1);
    assert_list(&tree, 2, K1);
    // The owner of the root is in everyone's list.
    tree.change(&set_owner(0, "01 01 000000000005 13000000", SYSTEM))
        .unwrap();
    assert_list(&tree, 2, &K1.replace("12 00 00 00", "13 00 00 00"));
    tree.undo().unwrap();
    assert_list(&tree, 2, K1);
}

#[test]
fn an_undone_add_frees_its_number() {
    let mut tree = tree(2, 16);
    assert_eq!(tree.undo(), Err(Refused::NothingKept));
    tree.change(&add(NO_PARENT, 0, "")).unwrap();
    // The root is no container: nothing can be added.
    assert_refused(&mut tree, add(0, 0, ""), 9, 0, 0);
    tree.undo().unwrap();
    assert_counts(&tree, 0, 0);
    assert_refused(&mut tree, add(0, 0, ""), 9, 0, 0);
    assert_refused(&mut tree, set_mark(0, 1), 9, 0, 0);
    tree.change(&root(PARENT)).unwrap();
    assert_done(&mut tree, add(0, 0, ""), 28, 1, 1);
    tree.undo().unwrap();
    assert_done(&mut tree, add(0, CONTAINER, ""), 48, 1, 2);
    assert_counts(&tree, 2, 2);
}

#[test]
fn steps_past_the_limit_are_forgotten() {
    let mut tree = tree(4, 2);
    tree.change(&root(PARENT)).unwrap();
    tree.change(&set_mark(0, 1)).unwrap();
    // What already stands is a change too, and so is removing nothing.
    tree.change(&set_mark(0, 1)).unwrap();
    tree.change(&add(0, 0, "")).unwrap();
    tree.change(&remove_list(1)).unwrap();
    assert_counts(&tree, 2, 2);
    tree.undo().unwrap();
    assert_counts(&tree, 2, 1);
    tree.undo().unwrap();
    assert_counts(&tree, 1, 0);
    assert_eq!(tree.undo(), Err(Refused::NothingKept));
    assert!(tree.objects()[0].is_protected);
    // What was forgotten never comes back.
    tree.change(&set_mark(0, 0)).unwrap();
    assert_counts(&tree, 1, 1);
    tree.undo().unwrap();
    assert_eq!(tree.undo(), Err(Refused::NothingKept));
}

#[test]
fn without_steps_changes_are_made_and_none_is_kept() {
    let mut tree = tree(2, 0);
    assert_done(&mut tree, root(PARENT), 28, 1, 1);
    assert_counts(&tree, 1, 0);
    assert_eq!(tree.undo(), Err(Refused::NothingKept));
    assert_list(&tree, 0, ROOTS);
}

#[test]
fn starts_in_order() {
    let good = start(3, 1);
    let needed = room(3, 1);
    let refused = |room_length: usize, start: Start| {
        answer(Tree::start(room_length, &start).map(|_| Answer::default()))
    };
    let of_list = |number, offset| [number, 3, offset, 0, 0, 0, 0, 0];
    let as_a_whole = |number| [number, 0, 0, 0, 0, 0, 0, 0];
    let bad_default = Start {
        has_default: 0x8000_0000,
        default_list: bytes(&PLAIN.replace("00 00 14 00", "00 20 14 00")),
        ..good.clone()
    };
    assert_eq!(refused(needed, bad_default.clone()), of_list(4, 8));
    for (objects, steps, rule, room_length) in [
        (0, 1, 2, needed),
        (65, 1, 2, 300_000),
        (3, 65, 2, 300_000),
        (259, 1, 2, needed),
        (3, 1, 0, needed),
        (3, 1, 3, needed),
        (3, 1, 0x102, needed),
        (3, 1, 2, needed - 1),
        (3, 1, 2, 0),
    ] {
        let start = Start {
            objects,
            steps,
            rule,
            ..bad_default.clone()
        };
        assert_eq!(refused(room_length, start), as_a_whole(12));
    }
    let no_list = Start {
        default_list: Vec::new(),
        ..bad_default.clone()
    };
    assert_eq!(refused(needed, no_list), of_list(1, 0));
    let too_long = long_entries(14);
    let longest = Start {
        default_list: bytes(&too_long),
        ..bad_default.clone()
    };
    assert_eq!(refused(needed, longest.clone()), as_a_whole(8));
    let not_looked_at = Start {
        has_default: 0,
        ..longest
    };
    assert_eq!(refused(needed, not_looked_at), [0; 8]);
    // A bad entry behind 1,024 bytes comes before the length.
    let bad_at_the_end = {
        let mut list = bytes(&too_long);
        list[8 + 13 * 76] = 2;
        list
    };
    let both = Start {
        default_list: bad_at_the_end,
        ..bad_default
    };
    assert_eq!(refused(needed, both), of_list(3, 996));
    assert_eq!(refused(needed + 1, good), [0; 8]);
}

#[test]
fn parents_of_adds() {
    let mut tree = tree(4, 4);
    for parent in [0, 1, 0xFF, NO_PARENT - 1] {
        assert_refused(&mut tree, add(parent, CONTAINER, ""), 9, 0, 0);
    }
    tree.change(&root(PARENT)).unwrap();
    tree.change(&add(0, 0, "")).unwrap();
    for parent in [1, 2, 3, 0xFF, 0x100, NO_PARENT] {
        assert_refused(&mut tree, add(parent, CONTAINER, ""), 9, 0, 0);
    }
}

/// Bad at every stage; then each stage is made good in turn.
#[test]
fn refusals_of_an_add_in_order() {
    let mut full = tree(1, 4);
    full.change(&root(PARENT)).unwrap();
    let bad_list = |list: &str| list.replacen("00 03", "07 03", 1);
    let mut asked = Add {
        parent: 1,
        traits: OWN_LIST,
        object_type: GUID,
        owner: bytes(CREATOR_OWNER),
        group: bytes(CREATOR_GROUP),
        list: bytes(&bad_list(&long_entries(14))),
    };
    assert_refused(&mut full, Change::Add(asked.clone()), 9, 0, 0);
    asked.parent = 0;
    assert_refused(&mut full, Change::Add(asked.clone()), 10, 0, 0);
    let mut tree = tree(2, 4);
    tree.change(&root(PARENT)).unwrap();
    assert_refused(&mut tree, Change::Add(asked.clone()), 3, 2, 8);
    asked.list = bytes(&long_entries(14));
    assert_refused(&mut tree, Change::Add(asked.clone()), 6, 0, 0);
    asked.owner = bytes(SYSTEM);
    assert_refused(&mut tree, Change::Add(asked.clone()), 6, 0, 0);
    asked.group = bytes(SYSTEM);
    assert_refused(&mut tree, Change::Add(asked.clone()), 8, 0, 0);
    // 8 + 13 * 76 bytes and the parent's 20 come to 1,016.
    asked.list = bytes(&long_entries(13));
    assert_done(&mut tree, Change::Add(asked), 1_016, 1, 14);
}

#[test]
fn refusals_of_other_changes_in_order() {
    let mut tree = tree(2, 4);
    tree.change(&root(PARENT)).unwrap();
    let bad_list = PARENT.replacen("00 03", "00 23", 1);
    assert_refused(&mut tree, set_list(1, &bad_list), 9, 0, 0);
    assert_refused(&mut tree, set_list(0, &bad_list), 4, 2, 8);
    assert_refused(&mut tree, set_list(0, ""), 1, 2, 0);
    assert_refused(&mut tree, set_list(0, &long_entries(14)), 8, 0, 0);
    assert_refused(&mut tree, remove_list(NO_PARENT), 9, 0, 0);
    assert_refused(&mut tree, set_mark(1, 0), 9, 0, 0);
    assert_refused(&mut tree, set_owner(1, "", ""), 9, 0, 0);
    assert_refused(&mut tree, set_owner(0, CREATOR_GROUP, SYSTEM), 6, 0, 0);
    assert_refused(&mut tree, set_owner(0, SYSTEM, CREATOR_OWNER), 6, 0, 0);
    assert_refused(&mut tree, set_owner(0, SYSTEM, ""), 6, 0, 0);
    assert_counts(&tree, 1, 1);
}

#[test]
fn a_list_of_another_object_can_be_too_long() {
    let mut tree = tree(3, 8);
    tree.change(&root(PARENT)).unwrap();
    tree.change(&add(0, CONTAINER, "")).unwrap();
    // The child has each entry twice: 8 + 12 * 76 = 920 bytes, then 1,072.
    assert_done(&mut tree, set_list(0, &long_entries(6)), 464, 1, 6);
    assert_refused(&mut tree, set_list(0, &long_entries(7)), 8, 0, 0);
    // A long owner in the place of ten placeholders.
    let ten = format!(
        "02 00 D0 00 0A 00 00 00 {}",
        format!("00 03 14 00 00 00 00 80 {CREATOR_OWNER}").repeat(10)
    );
    assert_done(&mut tree, set_list(0, &ten), 208, 1, 10);
    let long_owner = format!("01 0F 000000000005 {}", "09000000".repeat(15));
    assert_refused(&mut tree, set_owner(0, &long_owner, SYSTEM), 8, 0, 0);
    tree.undo().unwrap();
    assert_done(&mut tree, set_owner(0, &long_owner, SYSTEM), 464, 1, 6);
    // A mark keeps the parent's part away.
    let protected = add(1, CONTAINER | PROTECTED | OWN_LIST, &long_entries(6));
    assert_done(&mut tree, protected, 464, 1, 6);
    assert_refused(&mut tree, set_mark(2, 0), 8, 0, 0);
    assert_counts(&tree, 3, 5);
}

#[test]
fn given_and_computed_lists_of_exactly_1024_bytes() {
    let with_tail = |numbers: usize| {
        // 13 entries of 76 bytes, and one that makes the length.
        let size = 16 + 4 * numbers;
        let tail = format!(
            "00 00 {size:02X} 00 01 00 00 00 01 {numbers:02X} 000000000005 {}",
            "09000000".repeat(numbers)
        );
        let length = hex::encode(&(8 + 13 * 76 + size as u16).to_le_bytes());
        let entries = bytes(&long_entries(13))[8..].to_vec();
        format!("02 00 {length} 0E 00 00 00 {}{tail}", hex::encode(&entries))
    };
    let mut tree = tree(2, 2);
    assert_done(&mut tree, root(&with_tail(3)), 1_024, 1, 14);
    assert_refused(&mut tree, set_list(0, &with_tail(4)), 8, 0, 0);
    // An entry of 20 bytes whose placeholder becomes 12, then 20 bytes.
    let of_owner = with_tail(1).replace("01 01 000000000005 09000000", CREATOR_OWNER);
    assert_done(&mut tree, set_list(0, &of_owner), 1_016, 1, 14);
    let owner = |numbers: usize| {
        let rest = "05000000".repeat(numbers);
        format!("01 {numbers:02X} 000000000005 {rest}")
    };
    assert_done(&mut tree, set_owner(0, &owner(3), SYSTEM), 1_024, 1, 14);
    assert_refused(&mut tree, set_owner(0, &owner(4), SYSTEM), 8, 0, 0);
}

/// With bytes behind it, inside the stated size, up to this length.
fn filled_up(list: &str, length: usize) -> String {
    let mut list = bytes(list);
    list.resize(length, 0xEE);
    list[2..4].copy_from_slice(&(length as u16).to_le_bytes());
    hex::encode(&list)
}

#[track_caller]
fn assert_own(tree: &Tree, number: u32, list: &str, count: u32) {
    let mut out = [0x77; 1_030];
    let answer = tree.read_back(Part::Own, number, &mut out).unwrap();
    let list = bytes(list);
    let length = list.len() as u32;
    assert_eq!(answer.eight(), [0, 0, 0, length, 1, count, 0, 0]);
    assert_eq!(out[..list.len()], list);
    assert!(out[list.len()..].iter().all(|&byte| byte == 0x77));
}

#[test]
fn own_lists_are_kept_with_their_spare_bytes() {
    let mut tree = tree(3, 8);
    let roomy = filled_up(PARENT, 31);
    assert_done(&mut tree, root(&roomy), 28, 1, 1);
    assert_done(&mut tree, add(0, CONTAINER, ""), 48, 1, 2);
    assert_own(&tree, 0, &roomy, 1);
    assert_list(&tree, 0, ROOTS);
    assert_list(&tree, 1, K1);
    let empty = filled_up(EMPTY, 9);
    assert_done(&mut tree, set_list(0, &empty), 8, 1, 0);
    assert_own(&tree, 0, &empty, 0);
    assert_list(&tree, 0, EMPTY);
    // What a smaller count hides is not there, and comes back with the list.
    let hidden = PARENT.replacen("1C 00 01", "1C 00 00", 1);
    assert_done(&mut tree, set_list(0, &hidden), 8, 1, 0);
    assert_own(&tree, 0, &hidden, 0);
    assert_eq!(tree.list(1), None);
    tree.undo().unwrap();
    assert_own(&tree, 0, &empty, 0);
    tree.undo().unwrap();
    assert_own(&tree, 0, &roomy, 1);
    assert_list(&tree, 1, K1);
}

#[test]
fn spare_bytes_count_for_the_length_of_a_list_given() {
    let mut tree = tree(2, 4);
    let longest = filled_up(PARENT, 1_024);
    assert_done(&mut tree, root(&longest), 28, 1, 1);
    assert_own(&tree, 0, &longest, 1);
    for length in [1_025, 1_028, 65_535] {
        let longer = filled_up(PARENT, length);
        assert_refused(&mut tree, set_list(0, &longer), 8, 0, 0);
        let listed = add(0, CONTAINER | OWN_LIST, &longer);
        assert_refused(&mut tree, listed, 8, 0, 0);
    }
    // A bad entry comes before the length.
    let bad = filled_up(&PARENT.replace("00 03 14 00", "00 23 14 00"), 1_025);
    assert_refused(&mut tree, set_list(0, &bad), 4, 2, 8);
    // They never count in what is computed: 8 + 12 * 76 bytes below the root.
    assert_done(&mut tree, add(0, CONTAINER, ""), 48, 1, 2);
    let six = filled_up(&long_entries(6), 1_024);
    assert_done(&mut tree, set_list(0, &six), 464, 1, 6);
    assert_eq!(tree.list(1).unwrap().len(), 920);
    let seven = filled_up(&long_entries(7), 1_024);
    assert_refused(&mut tree, set_list(0, &seven), 8, 0, 0);
}

#[test]
fn a_default_list_may_have_spare_bytes() {
    let with_default = |length| Start {
        has_default: 1,
        default_list: bytes(&filled_up(PARENT, length)),
        ..start(2, 2)
    };
    for length in [29, 1_024] {
        let mut tree = started(&with_default(length));
        assert_done(&mut tree, add(NO_PARENT, CONTAINER, ""), 28, 1, 1);
        assert_done(&mut tree, add(0, CONTAINER, ""), 48, 1, 2);
        assert_list(&tree, 0, ROOTS);
    }
    let refused = Tree::start(room(2, 2), &with_default(1_025)).unwrap_err();
    assert_eq!(refused, Refused::DefaultTooLong);
}

#[test]
fn chains_grow_with_every_level() {
    let mut tree = tree(64, 0);
    tree.change(&root(&long_entries(1))).unwrap();
    let mut lengths = vec![84];
    // Each level has an entry of its own and two for each one above it.
    while let Ok(answer) = {
        let parent = tree.objects().len() as u32 - 1;
        tree.change(&add(parent, CONTAINER | OWN_LIST, &long_entries(1)))
    } {
        lengths.push(answer.length);
    }
    assert_eq!(lengths, [84, 236, 388, 540, 692, 844, 996]);
}
