//! Records of the computation: a fixed part of 56 bytes, then six parts.

use super::{Case, KIND_COMPUTE, spaced};
use crate::computing::{self, Request};
use crate::hex;

const LONGEST_GIVEN_LIST: usize = 66_000;
/// Of types, owner and group.
pub const LONGEST_OTHER: usize = 200;
pub const LONGEST_ROOM: usize = 66_000;
/// Longer rooms are answered with a sum in place of their bytes.
const LONGEST_SHOWN: usize = 1_024;

/// The words after the first four bytes.
const WORDS: usize = 13;
const LIMITS: [usize; 6] = [
    LONGEST_GIVEN_LIST,
    LONGEST_GIVEN_LIST,
    LONGEST_GIVEN_LIST,
    LONGEST_OTHER,
    LONGEST_OTHER,
    LONGEST_OTHER,
];

pub fn encode(request: &Request, room: usize, out: &mut Vec<u8>) {
    let parts = [
        &request.parent,
        &request.creator,
        &request.default_list,
        &request.types,
        &request.owner,
        &request.group,
    ];
    let within_limits = parts
        .iter()
        .zip(LIMITS)
        .all(|(part, most)| part.len() <= most);
    assert!(within_limits && room <= LONGEST_ROOM, "a case is too long");

    let mut words = vec![request.rule, request.settings];
    words.extend(request.mapping);
    words.extend(parts.map(|part| part.len() as u32));
    words.push(room as u32);
    out.extend([KIND_COMPUTE, 0, 0, 0]);
    out.extend(words.into_iter().flat_map(u32::to_le_bytes));
    out.extend(parts.into_iter().flatten());
}

/// The first byte is known to be the kind.
pub fn decode(file: &[u8]) -> Result<(Case, &[u8]), &'static str> {
    let (head, rest) = file.split_first_chunk::<4>().ok_or("cut head")?;
    if head[1..] != [0, 0, 0] {
        return Err("unknown head");
    }
    let (words, mut rest) = rest.split_at_checked(4 * WORDS).ok_or("cut head")?;
    let (words, _) = words.as_chunks::<4>();
    let words: Vec<u32> = words.iter().map(|&w| u32::from_le_bytes(w)).collect();
    let [
        rule,
        settings,
        read,
        write,
        execute,
        all,
        ref lengths @ ..,
        room,
    ] = words[..]
    else {
        return Err("cut head");
    };
    let room = room as usize;
    if room > LONGEST_ROOM {
        return Err("the room is too long");
    }
    let mut parts = Vec::new();
    for (&length, most) in lengths.iter().zip(LIMITS) {
        let (part, behind) = rest.split_at_checked(length as usize).ok_or("cut part")?;
        if part.len() > most {
            return Err("a part is too long");
        }
        parts.push(part.to_vec());
        rest = behind;
    }
    let [parent, creator, default_list, types, owner, group] =
        <[Vec<u8>; 6]>::try_from(parts).map_err(|_| "not six parts")?;
    let request = Request {
        rule,
        settings,
        mapping: [read, write, execute, all],
        parent,
        creator,
        default_list,
        types,
        owner,
        group,
    };
    Ok((Case::Compute { request, room }, rest))
}

/// Before a computation, the room's byte i holds 37 i + 11, cut to 8 bits.
pub fn fresh_room(length: usize) -> Vec<u8> {
    (0..length).map(|i| (37 * i + 11) as u8).collect()
}

pub fn line(request: &Request, room: usize) -> String {
    let mut buffer = fresh_room(room);
    let answer = computing::compute(request, &mut buffer);
    let bytes = if room <= LONGEST_SHOWN {
        hex::encode(&buffer)
    } else {
        spaced(adler_sum(&buffer))
    };
    format!("{} {bytes}", spaced(answer.seven()))
}

fn adler_sum(bytes: &[u8]) -> [u32; 2] {
    bytes.iter().fold([1, 0], |[a, b], &byte| {
        let a = (a + u32::from(byte)) % 65_521;
        [a, (b + a) % 65_521]
    })
}

#[cfg(test)]
mod tests {
    use super::*;
    use crate::records::{answer_lines, decode_all, encode_all};

    fn request() -> Request {
        Request {
            rule: 1,
            settings: 0x0203,
            mapping: [4, 5, 6, 7],
            parent: vec![0xA0, 0xA1],
            creator: vec![0xB0],
            default_list: vec![],
            types: vec![0xC0],
            owner: vec![0xD0, 0xD1, 0xD2],
            group: vec![0xE0],
        }
    }

    #[test]
    fn a_record_is_laid_out_as_agreed() {
        let (request, room) = (request(), 9);
        let cases = vec![Case::Compute { request, room }];
        let file = encode_all(&cases);
        let expected = "03 00 0000 01000000 03020000 04000000 05000000 06000000 07000000 \
            02000000 01000000 00000000 01000000 03000000 01000000 09000000 \
            A0A1 B0 C0 D0D1D2 E0  00";
        assert_eq!(file, hex::decode(expected).unwrap());
        assert_eq!(decode_all(&file).unwrap(), cases);
        for cut in 0..file.len() {
            assert!(decode_all(&file[..cut]).is_err(), "cut at {cut}");
        }
    }

    #[test]
    fn lengths_over_the_limits_are_told() {
        let (request, room) = (request(), 0);
        let mut file = encode_all(&[Case::Compute { request, room }]);
        file.resize(1_000, 0);
        file[44] = 201;
        assert!(decode_all(&file).unwrap_err().contains("too long"));
    }

    #[test]
    fn lines_show_the_room_or_its_sum() {
        let case = |room| Case::Compute {
            request: request(),
            room,
        };
        assert_eq!(answer_lines(&[case(0)]), "1 1 0 0 0 0 0 \n");
        assert_eq!(answer_lines(&[case(3)]), "1 1 0 0 0 0 0 0b3055\n");
        let shown = answer_lines(&[case(1_024)]);
        assert_eq!(shown.len(), "1 1 0 0 0 0 0 \n".len() + 2 * 1_024);
        // Every 256 bytes of the room hold each value once. The first 1,024
        // sum to 4 * 32,640, and byte 1,024 is 11 again.
        let a = (1 + 4 * 32_640 + 11) % 65_521;
        assert!(answer_lines(&[case(1_025)]).starts_with(&format!("1 1 0 0 0 0 0 {a} ")));
        assert_eq!(adler_sum(b"Wikipedia"), [0x0398, 0x11E6]);
    }
}
