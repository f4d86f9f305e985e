use super::*;
use crate::cases::build::nt_sid;
use crate::hex;
use crate::records::{answer_lines, decode_all, encode_all};

fn start() -> Call {
    Call::Start {
        room_length: 55_400,
        start: Start {
            objects: 16,
            steps: 3,
            rule: 2,
            mapping: [5, 6, 7, 8],
            has_default: 1,
            default_list: vec![2, 0, 8, 0, 0, 0, 0, 0],
        },
    }
}

fn add() -> Call {
    Call::Change(Change::Add(Add {
        parent: u32::MAX,
        traits: 1,
        object_type: [0xCC; 16],
        owner: nt_sid(&[18]),
        group: nt_sid(&[]),
        list: vec![0xEE],
    }))
}

fn all_calls() -> Vec<Call> {
    let read = |part, object| Call::Read {
        part,
        object,
        out_length: 10,
    };
    let set_list = Change::SetList {
        object: 0,
        has_list: 0,
        list: vec![1, 2],
    };
    let set_owner = Change::SetOwner {
        object: 0,
        owner: vec![7],
        group: vec![],
    };
    vec![
        start(),
        add(),
        Call::Change(set_list),
        Call::Change(Change::SetMark { object: 1, mark: 9 }),
        Call::Change(set_owner),
        read(Part::List, 0),
        read(Part::Own, 0),
        read(Part::Data, 0),
        Call::Counts,
        Call::Undo,
        Call::Room {
            objects: 16,
            steps: 16,
        },
    ]
}

fn file(calls: Vec<Call>) -> Vec<u8> {
    encode_all(&calls.into_iter().map(Case::Tree).collect::<Vec<Case>>())
}

#[test]
fn records_are_laid_out_as_agreed() {
    let expected = "04 68D80000 10000000 03000000 02000000 \
        05000000 06000000 07000000 08000000 01000000 0800 0200080000000000 \
        05 FFFFFFFF 01000000 CCCCCCCCCCCCCCCCCCCCCCCCCCCCCCCC \
        0C00 010100000000000512000000 0800 0100000000000005 0100 EE \
        06 00000000 00000000 0200 0102 \
        07 01000000 09000000 \
        08 00000000 0100 07 0000 \
        0A 00000000 0A00  0B 00000000 0A00  0C 00000000 0A00 \
        0D 09 0E 10000000 10000000 00";
    assert_eq!(file(all_calls()), hex::decode(expected).unwrap());
}

#[test]
fn records_come_back() {
    let file = file(all_calls());
    let cases: Vec<Case> = all_calls().into_iter().map(Case::Tree).collect();
    assert_eq!(decode_all(&file).unwrap(), cases);
    for cut in 1..file.len() {
        assert!(decode_all(&file[..cut]).is_err(), "cut at {cut}");
    }
    assert!(decode_all(&[&file[..], &[0]].concat()).is_err());
}

#[test]
fn lengths_over_the_limits_are_told() {
    let out_too_long = hex::decode("0A 00000000 4D04 00").unwrap();
    assert!(decode_all(&out_too_long).unwrap_err().contains("too long"));
    let long_owner = hex::decode("08 00000000 C900").unwrap();
    assert!(decode_all(&long_owner).unwrap_err().contains("too long"));
}

#[test]
fn lines() {
    let answers = answer_lines(&decode_all(&file(all_calls())).unwrap());
    // 4 of the 10 bytes of out stay AA where the list of 8 bytes came.
    let out_with_list = [2, 0, 8, 0, 0, 0, 0, 0, 0xAA, 0xAA];
    let expected = format!(
        "4 0 0 0 0 0 0 0 0\n\
         5 0 0 0 8 1 0 0 0\n\
         6 0 0 0 8 1 0 0 0\n\
         7 9 0 0 0 0 0 0 0\n\
         8 6 0 0 0 0 0 0 0\n\
         10 0 0 0 8 1 0 0 0 {:08x}\n\
         11 0 0 0 0 0 0 0 0 {untouched:08x}\n\
         12 8 0 0 0 0 0 0 0 {untouched:08x}\n\
         13 0 0 0 1 1 2 0 0\n\
         9 0 0 0 0 0 0 0 0\n\
         14 55400\n",
        fnv_1a(&out_with_list),
        untouched = fnv_1a(&[0xAA; 10]),
    );
    assert_eq!(answers, expected);
}

#[test]
fn without_a_start_nothing_is_a_tree() {
    let answers = answer_lines(&[Case::Tree(Call::Undo), Case::Tree(add())]);
    assert_eq!(answers, "9 13 0 0 0 0 0 0 0\n5 13 0 0 0 0 0 0 0\n");
}

#[test]
fn the_hash_is_the_known_one() {
    assert_eq!(fnv_1a(b""), 0x811C_9DC5);
    assert_eq!(fnv_1a(b"a"), 0xE40C_292C);
    assert_eq!(fnv_1a(b"foobar"), 0xBF9C_F968);
}
