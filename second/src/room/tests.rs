use super::*;
use crate::hex;
use crate::tree::{Add, Calls, Change, Limits, Part, Refused, Start, Tree, traits};

const SYSTEM: &str = "01 01 000000000005 12000000";
const PARENT: &str = "02 00 1C 00 01 00 00 00 \
    00 03 14 00 00 00 00 80 01 01 00 00 00 00 00 03 00 00 00 00";
const EMPTY: &str = "02 00 08 00 00 00 00 00";

fn bytes(text: &str) -> Vec<u8> {
    hex::decode(text).unwrap()
}

/// Limits 3 and 2: the places by docs/ROOM.md's numbers.
const NEEDED: usize = 1_048 + 3 * 2_211 + 2 * 1_186;
const OBJECTS: [usize; 3] = [1_048, 3_259, 5_470];
const LISTS: [usize; 3] = [2_232, 4_443, 6_654];
const STEPS: [usize; 2] = [7_681, 8_867];

fn put(room: &mut [u8], at: usize, text: &str) {
    let bytes = bytes(text);
    room[at..at + bytes.len()].copy_from_slice(&bytes);
}

fn put_list(room: &mut [u8], at: usize, list: &str) {
    let length = bytes(list).len() as u16;
    put(
        room,
        at,
        &format!("01 {} {list}", hex::encode(&length.to_le_bytes())),
    );
}

/// Owner and group are S-1-5-18, the type is sevens.
fn put_own_data(room: &mut [u8], at: usize, parent_kind_mark: &str, list: Option<&str>) {
    put(room, at, &format!("{parent_kind_mark} {}", "07".repeat(16)));
    put(room, at + 19, &format!("0C {SYSTEM}"));
    put(room, at + 88, &format!("0C {SYSTEM}"));
    room[at + 157] = 0;
    if let Some(list) = list {
        put_list(room, at + 157, list);
    }
}

/// With bytes behind it, inside the stated size, up to this length.
fn filled_up(list: &str, length: usize) -> String {
    let mut list = bytes(list);
    list.resize(length, 0xEE);
    list[2..4].copy_from_slice(&(length as u16).to_le_bytes());
    hex::encode(&list)
}

/// Two objects; the second was added, then its mark was set. Their computed
/// lists are good and far from fresh. Noise lies wherever nothing looks.
fn room() -> Vec<u8> {
    let mut room: Vec<u8> = (0..NEEDED).map(|at| (at % 251) as u8 | 0x80).collect();
    put(&mut room, 0, "03 02 02 02 02");
    put(&mut room, 5, "89001200 16011200 A0001200 FF011F00");
    room[21] = 0;
    put_own_data(&mut room, OBJECTS[0], "FF 01 00", Some(PARENT));
    put_own_data(&mut room, OBJECTS[1], "00 01 01", None);
    put_list(&mut room, LISTS[0], EMPTY);
    room[LISTS[1]] = 0;
    put(&mut room, STEPS[0], "02 01");
    put_own_data(&mut room, STEPS[0] + 2, "00 01 00", None);
    put(&mut room, STEPS[1], "01 01");
    room
}

fn changed(changes: &[(usize, u8)]) -> Vec<u8> {
    let mut room = room();
    for &(at, value) in changes {
        room[at] = value;
    }
    room
}

#[track_caller]
fn assert_bad(room: &[u8]) {
    assert_eq!(read(room), Err(Refused::NotATree));
}

#[test]
fn a_room_made_by_hand() {
    let found = read(&room()).unwrap();
    assert_eq!(
        found.limits,
        Limits {
            objects: 3,
            steps: 2
        }
    );
    assert_eq!(found.limits.room(), NEEDED);
    assert_eq!(found.settings.rule, 2);
    assert_eq!(found.settings.mapping[3], 0x001F_01FF);
    assert_eq!(found.settings.default_list, None);
    let [root, child] = &found.objects[..] else {
        panic!("not two objects");
    };
    assert_eq!(
        (root.parent, root.is_container, root.is_protected),
        (None, true, false)
    );
    assert_eq!(root.own_list, Some(bytes(PARENT)));
    assert_eq!(
        (child.parent, child.is_container, child.is_protected),
        (Some(0), true, true)
    );
    assert_eq!((child.object_type, &child.owner), ([7; 16], &bytes(SYSTEM)));
    assert_eq!(child.own_list, None);
    assert_eq!(found.lists, [Some(bytes(EMPTY)), None]);
    let before = crate::tree::Object {
        is_protected: false,
        ..child.clone()
    };
    assert_eq!(found.steps, [Step::Other { object: 1, before }, Step::Add]);
}

#[test]
fn the_found_tree_answers_by_what_is_stored() {
    let mut found = read(&room()).unwrap();
    assert_eq!(found.counts().eight(), [0, 0, 0, 2, 1, 2, 0, 0]);
    let mut out = [0; 50];
    let stored = found.read_back(Part::List, 0, &mut out).unwrap();
    assert_eq!(stored.eight(), [0, 0, 0, 8, 1, 0, 0, 0]);
    assert_eq!(
        found.read_back(Part::List, 1, &mut []).unwrap().eight(),
        [0; 8]
    );
    assert_eq!(found.read_back(Part::Data, 1, &mut out).unwrap().length, 45);
    assert_eq!(out[..3], [0, 1, 1]);

    // Undo makes every list fresh.
    assert_eq!(found.undo().unwrap().eight(), [0; 8]);
    assert!(!found.objects[1].is_protected);
    let lengths: Vec<usize> = found.lists.iter().flatten().map(Vec::len).collect();
    assert_eq!(lengths, [28, 48]);
    found.undo().unwrap();
    assert_eq!((found.objects.len(), found.steps.len()), (1, 0));
    assert_eq!(found.undo(), Err(Refused::NothingKept));
}

#[test]
fn a_change_makes_every_list_fresh() {
    let mut found = read(&room()).unwrap();
    let mark = Change::SetMark { object: 0, mark: 1 };
    assert_eq!(
        found.change(&mark).unwrap().eight(),
        [0, 0, 0, 28, 1, 1, 0, 0]
    );
    assert_eq!(found.lists[1].as_ref().unwrap().len(), 48);
    // The add was the oldest of two steps and is forgotten.
    let objects: Vec<usize> = found
        .steps
        .iter()
        .map(|step| match step {
            Step::Add => panic!("forgotten"),
            Step::Other { object, .. } => *object,
        })
        .collect();
    assert_eq!(objects, [0, 1]);
}

#[test]
fn a_found_tree_can_hold_what_no_calls_reach() {
    let mut made = room();
    // Forty entries of 20 bytes, each twice below: 8 + 2 * 800 bytes.
    let many = format!(
        "02 00 28 03 28 00 00 00 {}",
        format!("00 03 14 00 01 00 00 00 {SYSTEM}").repeat(40)
    );
    put_own_data(&mut made, OBJECTS[0], "FF 01 00", Some(&many));
    let found = read(&made).unwrap();
    assert_eq!(found.clone().undo(), Err(Refused::ComputedTooLong));
    let mark = |object| Change::SetMark { object, mark: 0 };
    assert_eq!(found.clone().change(&mark(2)), Err(Refused::NoSuchObject));
    let mut mended = found.clone();
    assert_eq!(mended.change(&mark(1)), Err(Refused::ComputedTooLong));
    assert_eq!(mended, found);
    let remove = Change::SetList {
        object: 0,
        has_list: 0,
        list: Vec::new(),
    };
    assert_eq!(mended.change(&remove).unwrap().eight(), [0; 8]);
    assert_eq!(mended.undo(), Err(Refused::ComputedTooLong));
    assert_eq!(mended.steps.len(), 2);
}

#[test]
fn rooms_that_are_too_short() {
    let room = room();
    for length in [0, 1, 4, 5, 20, 21, 1_047, 1_048, 5_000, NEEDED - 1] {
        assert_bad(&room[..length]);
    }
    assert_bad(&[0; NEEDED]);
    // Bytes past the formula are not looked at.
    let longer = [&room[..], &[0xFF; 9]].concat();
    assert_eq!(read(&longer), read(&room));
    // A greater limit asks for more room, and for other places of steps.
    assert_bad(&changed(&[(0, 4)]));
    assert_bad(&changed(&[(1, 3)]));
}

#[test]
fn limits_counts_and_rule() {
    for (at, value) in [
        (0, 0),
        (0, 65),
        (0, 1),
        (1, 65),
        (1, 1),
        (2, 0),
        (2, 1),
        (2, 4),
        (3, 3),
        (4, 0),
        (4, 3),
    ] {
        assert_bad(&changed(&[(at, value)]));
    }
    assert!(read(&changed(&[(3, 0)])).is_ok());
    assert!(read(&changed(&[(4, 1)])).is_ok());
    // Places of steps follow the object limit.
    let mut two_objects = changed(&[(0, 2), (1, 0), (3, 0)]);
    two_objects.truncate(1_048 + 2 * 2_211);
    assert!(read(&two_objects).is_ok());
    let none = changed(&[(2, 0), (3, 0)]);
    assert!(read(&none).unwrap().objects.is_empty());
}

#[test]
fn slots() {
    for slot in [21, OBJECTS[0] + 157, LISTS[0], LISTS[1], STEPS[0] + 2 + 157] {
        let mut good = room();
        put_list(&mut good, slot, PARENT);
        assert!(read(&good).is_ok(), "{slot}");
        for (at, value) in [
            (0, 2),
            (0, 0xFF),
            (1, 27),
            (1, 29),
            (2, 1),
            (3, 3),
            (4, 1),
            (7, 2),
            (12, 0x20),
            (19, 2),
            (20, 0),
        ] {
            let mut bad = good.clone();
            bad[slot + at] = value;
            assert_bad(&bad);
        }
        // The entry is hidden by a count of 0, or bytes stand behind it.
        let mut hidden = good.clone();
        hidden[slot + 7] = 0;
        assert!(read(&hidden).is_ok(), "{slot}");
        for length in [29, 48, 1_024] {
            let mut roomy = room();
            put_list(&mut roomy, slot, &filled_up(PARENT, length));
            assert!(read(&roomy).is_ok(), "{slot} {length}");
            // The size field says 1 less than the slot.
            roomy[slot + 5] = roomy[slot + 5].wrapping_sub(1);
            assert_bad(&roomy);
        }
        // Of an absent list nothing more is asked.
        let mut absent = good.clone();
        absent[slot] = 0;
        absent[slot + 1..slot + 1_027].fill(0xFF);
        assert!(read(&absent).is_ok(), "{slot}");
        let mut behind = good;
        behind[slot + 3 + 28..slot + 1_027].fill(0xFF);
        assert!(read(&behind).is_ok(), "{slot}");
    }
}

/// Any list of a room may have spare bytes. No call leaves a computed one
/// with them, and own ones stay as they are.
#[test]
fn spare_bytes_in_a_room() {
    let mut made = room();
    let roomy = filled_up(PARENT, 40);
    put_own_data(&mut made, OBJECTS[0], "FF 01 00", Some(&roomy));
    put_list(&mut made, LISTS[0], &filled_up(EMPTY, 11));
    put_list(&mut made, LISTS[1], &filled_up(PARENT, 1_024));
    put_own_data(&mut made, STEPS[0] + 2, "00 01 00", Some(&roomy));
    let mut found = read(&made).unwrap();
    let mut out = [0; 1_024];
    let stored = found.read_back(Part::List, 0, &mut out).unwrap();
    assert_eq!(stored.eight(), [0, 0, 0, 11, 1, 0, 0, 0]);
    assert_eq!(out[..11], bytes(&filled_up(EMPTY, 11)));
    let stored = found.read_back(Part::List, 1, &mut out).unwrap();
    assert_eq!(stored.eight(), [0, 0, 0, 1_024, 1, 1, 0, 0]);
    let own = found.read_back(Part::Own, 0, &mut out).unwrap();
    assert_eq!(own.eight(), [0, 0, 0, 40, 1, 1, 0, 0]);
    assert_eq!(out[..40], bytes(&roomy));

    found.undo().unwrap();
    let lengths: Vec<usize> = found.lists.iter().flatten().map(Vec::len).collect();
    // The child has its own list and the root's entry twice.
    assert_eq!(lengths, [28, 68]);
    assert_eq!(found.objects[1].own_list, Some(bytes(&roomy)));
    assert_eq!(read(&lay_out(&found)), Ok(found));
}

#[test]
fn lengths_of_slots() {
    let plain = |numbers: usize| {
        let size = 16 + 4 * numbers;
        let rest = "09000000".repeat(numbers);
        format!("00 00 {size:02X} 00 01 00 00 00 01 {numbers:02X} 000000000005 {rest}")
    };
    let entries = format!("{}{}", plain(15).repeat(13), plain(3));
    let mut longest = room();
    put_list(
        &mut longest,
        21,
        &format!("02 00 00 04 0E 00 00 00 {entries}"),
    );
    let found = read(&longest).unwrap();
    assert_eq!(found.settings.default_list.unwrap().len(), 1_024);
    // The same with a byte behind the slot in it.
    let mut longer = longest;
    put(&mut longer, 22, "01 04");
    put(&mut longer, 26, "01 04");
    assert_bad(&longer);
}

#[test]
fn identities() {
    for at in [
        OBJECTS[0] + 19,
        OBJECTS[0] + 88,
        OBJECTS[1] + 19,
        STEPS[0] + 2 + 19,
        STEPS[0] + 2 + 88,
    ] {
        for (length_and_sid, good) in [
            ("0C 01 01 000000000003 00000000", false),
            ("0C 01 01 000000000003 01000000", false),
            ("0C 01 01 000000000003 02000000", true),
            ("08 01 00 000000000003", true),
            ("0B 01 01 000000000005 12000000", false),
            ("0D 01 01 000000000005 12000000", false),
            ("0C 02 01 000000000005 12000000", false),
            ("00 01 01 000000000005 12000000", false),
            ("44 01 0F 000000000005 12000000", true),
            ("45 01 0F 000000000005 12000000", false),
            ("48 01 10 000000000005 12000000", false),
            ("FF 01 0F 000000000005 12000000", false),
        ] {
            let mut made = room();
            put(&mut made, at, length_and_sid);
            assert_eq!(read(&made).is_ok(), good, "{at} {length_and_sid}");
        }
    }
}

#[test]
fn objects_and_their_parents() {
    let [root, child, _] = OBJECTS;
    for (at, value) in [
        (root, 0),
        (root, 1),
        (child, 0xFF),
        (child, 1),
        (child, 2),
        (child, 0x80),
        // The parent is no container.
        (root + 1, 0),
        (root + 1, 2),
        (child + 2, 2),
        (child + 2, 0x80),
    ] {
        assert_bad(&changed(&[(at, value)]));
    }
    // The child's parent and kind are in the step as well.
    assert_bad(&changed(&[(child + 1, 0)]));
    assert!(read(&changed(&[(child + 1, 0), (STEPS[0] + 2 + 1, 0)])).is_ok());
    assert!(read(&changed(&[(child + 2, 0)])).is_ok());
    assert_bad(&changed(&[(child + 3 + 9, 8)]));
}

#[test]
fn a_third_object() {
    let mut three = changed(&[(2, 3), (3, 0)]);
    put_own_data(&mut three, OBJECTS[2], "01 00 00", None);
    three[LISTS[2]] = 0;
    assert!(read(&three).is_ok());
    for (parent, good) in [(0, true), (1, true), (2, false), (3, false), (0xFF, false)] {
        three[OBJECTS[2]] = parent;
        assert_eq!(read(&three).is_ok(), good, "{parent}");
    }
}

#[test]
fn steps() {
    let [latest, oldest] = STEPS;
    for (at, value) in [
        (latest, 0),
        (latest, 3),
        // As an add it takes the child off, and the older one too.
        (latest, 1),
        (latest + 1, 2),
        (latest + 1, 0xFF),
        // Of the root it would have to have no parent.
        (latest + 1, 0),
        (latest + 2, 0xFF),
        (latest + 2 + 1, 0),
        (latest + 2 + 2, 2),
        (latest + 2 + 3, 8),
        (latest + 2 + 18, 8),
        (oldest, 2),
        (oldest, 0),
        (oldest + 1, 0),
        (oldest + 1, 2),
    ] {
        assert_bad(&changed(&[(at, value)]));
    }
    // What an add's step holds is not looked at, and no step that isn't kept.
    assert!(read(&changed(&[(oldest + 2, 0), (oldest + 1_185, 9)])).is_ok());
    let mut one_kept = changed(&[(3, 1)]);
    one_kept[oldest..].fill(0);
    assert_eq!(read(&one_kept).unwrap().steps.len(), 1);
    // Two adds, then a step for an object that doesn't stand before them.
    let both = changed(&[(latest, 1), (latest + 1, 1), (oldest + 1, 0)]);
    assert_eq!(read(&both).unwrap().steps, [Step::Add, Step::Add]);
    let mut twice_undone = read(&both).unwrap();
    twice_undone.undo().unwrap();
    twice_undone.undo().unwrap();
    assert!(twice_undone.objects.is_empty());
    let mut of_none = changed(&[(latest, 1), (latest + 1, 1), (oldest, 2), (oldest + 1, 1)]);
    put_own_data(&mut of_none, oldest + 2, "00 01 00", None);
    assert_bad(&of_none);
    of_none[oldest + 1] = 0;
    put_own_data(&mut of_none, oldest + 2, "FF 01 00", None);
    assert!(read(&of_none).is_ok());
}

#[test]
fn laid_out_trees_are_read_again() {
    let start = Start {
        objects: 3,
        steps: 2,
        rule: 1,
        mapping: [1, 2, 3, 0x0405_0607],
        has_default: 1,
        default_list: bytes(PARENT),
    };
    let mut tree = Tree::start(NEEDED, &start).unwrap();
    let empty = lay_out(&Found::from(&tree));
    let head = "03 02 00 00 01 01000000 02000000 03000000 07060504 01 1C00";
    assert_eq!(empty[..24], bytes(head));
    assert_eq!(empty[24..52], bytes(PARENT));
    assert!(empty[52..].iter().all(|&byte| byte == 0));
    assert_eq!(empty.len(), NEEDED);

    let add = |parent, list: &str| {
        Change::Add(Add {
            parent,
            traits: traits::CONTAINER | traits::OWN_LIST,
            object_type: [7; 16],
            owner: bytes(SYSTEM),
            group: bytes(SYSTEM),
            list: bytes(list),
        })
    };
    tree.change(&add(u32::MAX, PARENT)).unwrap();
    tree.change(&add(0, EMPTY)).unwrap();
    tree.change(&Change::SetMark { object: 0, mark: 1 })
        .unwrap();
    let found = Found::from(&tree);
    assert_eq!(found.steps.len(), 2);
    assert_eq!(found.steps[1], Step::Add);
    let room = lay_out(&found);
    assert_eq!(read(&room), Ok(found.clone()));
    assert_eq!(room[STEPS[0]..STEPS[0] + 5], [2, 0, 0xFF, 1, 0]);
    assert_eq!(room[STEPS[1]..STEPS[1] + 3], [1, 1, 0]);
    let over_noise = lay_out_over(&found, vec![0xEE; NEEDED + 5]);
    assert_eq!(read(&over_noise), Ok(found));
    assert_eq!(over_noise[OBJECTS[2]..LISTS[2] + 1_027], [0xEE; 2_211]);
}
