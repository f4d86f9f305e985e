use std::path::Path;

use super::*;
use crate::cases::script::fresh;
use crate::cases::tree::palette::Palette;
use crate::hex;
use crate::random::Random;
use crate::tree::{Start, Tree, room};

const HEAD_HEX: &str = "415853 0100";
const SYSTEM: &str = "0C 01 01 000000000005 12000000";
/// S-1-5.
const SHORT: &str = "08 01 00 000000000005";
const TYPE: &str = "07070707070707070707070707070707";
const NO_LIST: &str = "0000";
/// Document 01's parent, of 28 bytes.
const PARENT: &str = "1C00 02 00 1C00 0100 0000 00 03 1400 00000080 01 01 000000000003 00000000";
const EMPTY: &str = "0800 02 00 0800 0000 0000";

/// Owner and group are S-1-5-18.
fn add(parent: &str, kind: &str, mark: &str, list: &str) -> String {
    format!("01 {parent} {kind} {mark} {TYPE} {SYSTEM} {SYSTEM} {list} ")
}

fn document() -> String {
    let root = add("FF", "01", "00", PARENT);
    format!("{HEAD_HEX} {root} {}", add("00", "01", "00", NO_LIST))
}

fn bytes(text: &str) -> Vec<u8> {
    hex::decode(text).unwrap()
}

#[track_caller]
fn assert_plays(script: &str, text: &str) {
    assert_eq!(play(&bytes(script)).text, text);
}

#[track_caller]
fn assert_bad(script: &str, at: usize, why: Bad) {
    let played = play(&bytes(script));
    assert_eq!(played.ending, Ending::Bad { at, why });
    assert_eq!(played.text, format!("bad at {at}\n"));
}

#[test]
fn the_documents_own_example() {
    assert_plays(&document(), "objects 2\n0 28 1\n1 48 2\n");
}

#[test]
fn absent_and_empty_lists() {
    let root = add("FF", "00", "00", NO_LIST);
    assert_plays(&format!("{HEAD_HEX} {root}"), "objects 1\n0 none 0\n");
    let root = add("FF", "00", "00", EMPTY);
    assert_plays(&format!("{HEAD_HEX} {root}"), "objects 1\n0 8 0\n");
    assert_plays(HEAD_HEX, "objects 0\n");
}

#[test]
fn heads() {
    for wrong in ["", "415853 01", "41585301", "415853 0000", "415853 0200"] {
        assert_bad(wrong, 0, Bad::Head);
    }
    assert_bad("415853 0101", 0, Bad::Head);
    assert_bad("61585301 00", 0, Bad::Head);
}

/// The root's record has 76 bytes: 4, the type's 16, 13 and 13 for owner and
/// group, 30 for the list. The next one is 30 - 2 bytes shorter.
#[test]
fn offsets_of_bad_records() {
    let document = document();
    assert_eq!(bytes(&document).len(), 5 + 76 + 48);
    assert_bad(&format!("{document} 00"), 129, Bad::Unknown);
    assert_bad(&format!("{document} 05 06"), 130, Bad::Unknown);
    assert_bad(&format!("{document} 03 00"), 129, Bad::Cut);
    assert_bad(&document[..document.trim_end().len() - 2], 81, Bad::Cut);
    assert_bad(&format!("{HEAD_HEX} 01"), 5, Bad::Cut);
}

#[test]
fn form_comes_before_meaning() {
    // No object stands, and yet the mark ends the run.
    assert_bad(&format!("{HEAD_HEX} 03 00 02"), 5, Bad::AboveOne);
    assert_bad(&format!("{HEAD_HEX} 05 03 FF FF"), 6, Bad::AboveOne);
    let bad_kind = add("09", "02", "00", NO_LIST);
    assert_bad(&format!("{HEAD_HEX} {bad_kind}"), 5, Bad::AboveOne);
    let bad_mark = add("FF", "01", "FF", NO_LIST);
    assert_bad(&format!("{HEAD_HEX} {bad_mark}"), 5, Bad::AboveOne);
}

#[test]
fn refused_records_are_passed_over() {
    let refused = [
        // FF is no object; nor is 2.
        "03 FF 01",
        "02 02 0000",
        // Not a list, an owner of no bytes, a parent that doesn't stand.
        "02 00 0100 02",
        "04 00 00 00",
        &add("02", "01", "00", NO_LIST),
        &add("FF", "01", "00", NO_LIST),
    ]
    .join(" ");
    assert_plays(
        &format!("{} {refused}", document()),
        "objects 2\n0 28 1\n1 48 2\n",
    );
    // None of them is a step: the undo takes off the second add.
    assert_plays(
        &format!("{} {refused} 05", document()),
        "objects 1\n0 28 1\n",
    );
}

/// S-1-5 is 4 bytes shorter than S-1-5-18, in one entry and in two.
#[test]
fn every_record_and_its_undo() {
    let document = document();
    let owner = format!("{document} 04 00 {SHORT} {SHORT}");
    assert_plays(&owner, "objects 2\n0 24 1\n1 40 2\n");
    assert_plays(&format!("{owner} 05"), "objects 2\n0 28 1\n1 48 2\n");
    let removed = format!("{document} 02 00 0000");
    assert_plays(&removed, "objects 2\n0 none 0\n1 none 0\n");
    assert_plays(&format!("{removed} 05"), "objects 2\n0 28 1\n1 48 2\n");
    // A mark keeps out the root's entries only where there is an own list.
    let marked = format!("{document} 03 01 01");
    assert_plays(&marked, "objects 2\n0 28 1\n1 48 2\n");
    let closed = format!("{marked} 02 01 {EMPTY}");
    assert_plays(&closed, "objects 2\n0 28 1\n1 8 0\n");
    assert_plays(&format!("{closed} 0505"), "objects 2\n0 28 1\n1 48 2\n");
    assert_plays(&format!("{closed} 0505 0505"), "objects 0\n");
}

/// The root's list is document 01's parent and bytes up to 1,024, then up to
/// 1,025; the records are as long as their lists say.
#[test]
fn lists_with_spare_bytes() {
    let filled_up = |length: u16| {
        let size = hex::encode(&length.to_le_bytes());
        let entry = "00 03 1400 00000080 01 01 000000000003 00000000";
        let spare = "05".repeat(usize::from(length) - 28);
        format!("{size} 02 00 {size} 0100 0000 {entry} {spare}")
    };
    let below = add("00", "01", "00", NO_LIST);
    for length in [29, 48, 1_024] {
        let root = add("FF", "01", "00", &filled_up(length));
        let text = "objects 2\n0 28 1\n1 48 2\n";
        assert_plays(&format!("{HEAD_HEX} {root} {below}"), text);
        let set = format!("02 00 {}", filled_up(length));
        assert_plays(&format!("{} 02 00 0000 {set}", document()), text);
    }
    for length in [1_025, 65_535] {
        let root = add("FF", "01", "00", &filled_up(length));
        assert_plays(&format!("{HEAD_HEX} {root}"), "objects 0\n");
        let set = format!("02 01 {}", filled_up(length));
        assert_plays(&format!("{} {set} 05", document()), "objects 1\n0 28 1\n");
    }
}

#[test]
fn sixteen_objects_and_sixteen_steps() {
    let below = add("00", "00", "00", NO_LIST);
    let full = format!("{} {}", document(), below.repeat(15));
    let leaves = |last| {
        (2..=last)
            .map(|n| format!("{n} 28 1\n"))
            .collect::<String>()
    };
    let sixteen = format!("objects 16\n0 28 1\n1 48 2\n{}", leaves(15));
    assert_plays(&full, &sixteen);
    // Seventeen changes on two objects: the first three are never undone.
    let marks = format!("{} {}", document(), "03 00 01".repeat(17));
    let undone = format!("{marks} {}", "05".repeat(40));
    assert_plays(&undone, "objects 2\n0 28 1\n1 48 2\n");
    let fifteen = format!(
        "{} {} {}",
        document(),
        "03 00 01".repeat(15),
        "05".repeat(40)
    );
    assert_plays(&fifteen, "objects 1\n0 28 1\n");
}

#[test]
fn answers() {
    let played = play(&bytes(&document()));
    let mut out = [0xAA; 26];
    assert_eq!(played.answer(&mut out).eight(), [0, 0, 0, 24, 1, 2, 0, 0]);
    assert_eq!(&out, b"objects 2\n0 28 1\n1 48 2\n\xAA\xAA");
    let mut short = [0xAA; 23];
    assert_eq!(played.answer(&mut short).eight(), [8, 0, 0, 0, 0, 0, 0, 0]);
    assert_eq!(short, [0xAA; 23]);
    let mut out = [0xAA; 9];
    assert_eq!(play(&[]).answer(&mut out).eight(), [0, 0, 0, 9, 0, 0, 0, 0]);
    assert_eq!(&out, b"bad at 0\n");
}

/// The tree that plays its whole log again agrees with the one whose steps
/// are kept.
#[test]
fn the_replayed_tree_tells_the_same() {
    let mut random = Random::new(11);
    for _ in 0..40 {
        let palette = Palette::draw(&mut random);
        let script = fresh::records(&mut random, &palette, 30, |_, _| {});
        let start = Start {
            objects: 16,
            steps: 16,
            rule: RULE,
            mapping: MAPPING,
            has_default: 0,
            default_list: Vec::new(),
        };
        let mut replayed = Tree::start(room(16, 16), &start).unwrap();
        let played = play_watched(&script, |call, outcome| {
            assert_eq!(play_on(Some(&mut replayed), call), *outcome);
        });
        assert_eq!(played.text, listing(&Found::from(&replayed)));
    }
}

/// What is written as a record reads as the same call.
#[test]
fn records_come_back() {
    let mut random = Random::new(12);
    let palette = Palette::draw(&mut random);
    let script = fresh::records(&mut random, &palette, 60, |_, _| {});
    let mut again = HEAD.to_vec();
    play_watched(&script, |call, _| again.extend(record(call)));
    assert_eq!(again, script);
}

/// Each has its bytes as commented text too, and the text expected of it.
#[test]
fn the_examples_that_tell_a_story() {
    let folder = Path::new(env!("CARGO_MANIFEST_DIR")).join("../examples");
    let names = [
        "document",
        "closed_and_undone",
        "protected_folder",
        "creator_owner",
        "object_types",
        "chain_over_1024",
        "cut_file",
        "undo_past_the_steps",
        "full_control",
        "two_folders_stage_first",
        "two_folders_foyer_first",
    ];
    for name in names {
        let read = |ending| std::fs::read(folder.join(format!("{name}.{ending}"))).unwrap();
        let [script, commented, expected] = ["axs", "txt", "out"].map(read);
        let commented = String::from_utf8(commented).unwrap();
        assert_eq!(hex::decode_commented(&commented).unwrap(), script, "{name}");
        assert_eq!(play(&script).text.as_bytes(), expected, "{name}");
    }
}
