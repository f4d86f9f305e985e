//! The tree's calls.

use std::ffi::c_uint;

use super::lending::Lending;
use second::tree::{Call, Change, Part, Start};

unsafe extern "C" {
    fn pt_room(objects: c_uint, steps: c_uint) -> usize;
    fn pt_start(
        room: *mut u8,
        room_length: usize,
        objects: c_uint,
        steps: c_uint,
        rule: c_uint,
        mapping: *const c_uint,
        has_default: c_uint,
        default_list: *const u8,
        default_length: usize,
        answer: *mut c_uint,
    );
    fn pt_add(
        room: *mut u8,
        room_length: usize,
        parent: c_uint,
        traits: c_uint,
        object_type: *const u8,
        owner: *const u8,
        owner_length: usize,
        group: *const u8,
        group_length: usize,
        list: *const u8,
        list_length: usize,
        answer: *mut c_uint,
    );
    fn pt_set_list(
        room: *mut u8,
        room_length: usize,
        object: c_uint,
        has_list: c_uint,
        list: *const u8,
        list_length: usize,
        answer: *mut c_uint,
    );
    fn pt_set_mark(
        room: *mut u8,
        room_length: usize,
        object: c_uint,
        mark: c_uint,
        answer: *mut c_uint,
    );
    fn pt_set_owner(
        room: *mut u8,
        room_length: usize,
        object: c_uint,
        owner: *const u8,
        owner_length: usize,
        group: *const u8,
        group_length: usize,
        answer: *mut c_uint,
    );
    fn pt_undo(room: *mut u8, room_length: usize, answer: *mut c_uint);
    fn pt_list(
        room: *const u8,
        room_length: usize,
        object: c_uint,
        out: *mut u8,
        out_length: usize,
        answer: *mut c_uint,
    );
    fn pt_own(
        room: *const u8,
        room_length: usize,
        object: c_uint,
        out: *mut u8,
        out_length: usize,
        answer: *mut c_uint,
    );
    fn pt_data(
        room: *const u8,
        room_length: usize,
        object: c_uint,
        out: *mut u8,
        out_length: usize,
        answer: *mut c_uint,
    );
    fn pt_counts(room: *const u8, room_length: usize, answer: *mut c_uint);
}

pub fn room(objects: u32, steps: u32) -> usize {
    // SAFETY: nothing is lent.
    unsafe { pt_room(objects, steps) }
}

// In all that follows the pointers cover their lengths, or are null where a
// length is 0; what a call may change overlaps nothing, what it only reads may
// be one range; and the answer holds eight numbers.

pub fn start(room: &mut [u8], start: &Start, answer: &mut [u32; 8], lending: &Lending) {
    // SAFETY: as above; the mapping holds four numbers.
    unsafe {
        pt_start(
            lending.when_empty.pointer_mut(room),
            room.len(),
            start.objects,
            start.steps,
            start.rule,
            lending.mapping(&start.mapping),
            start.has_default,
            lending.pointer(&start.default_list),
            start.default_list.len(),
            answer.as_mut_ptr(),
        );
    }
}

pub fn change(room: &mut [u8], change: &Change, answer: &mut [u32; 8], lending: &Lending) {
    let room_length = room.len();
    let room = lending.when_empty.pointer_mut(room);
    let answer = answer.as_mut_ptr();
    match change {
        // SAFETY: as above; the type has sixteen bytes.
        Change::Add(add) => unsafe {
            pt_add(
                room,
                room_length,
                add.parent,
                add.traits,
                lending.pointer(&add.object_type),
                lending.pointer(&add.owner),
                add.owner.len(),
                lending.pointer(&add.group),
                add.group.len(),
                lending.pointer(&add.list),
                add.list.len(),
                answer,
            );
        },
        // SAFETY: as above.
        Change::SetList {
            object,
            has_list,
            list,
        } => unsafe {
            let pointer = lending.pointer(list);
            pt_set_list(
                room,
                room_length,
                *object,
                *has_list,
                pointer,
                list.len(),
                answer,
            );
        },
        // SAFETY: as above.
        Change::SetMark { object, mark } => unsafe {
            pt_set_mark(room, room_length, *object, *mark, answer);
        },
        // SAFETY: as above.
        Change::SetOwner {
            object,
            owner,
            group,
        } => unsafe {
            pt_set_owner(
                room,
                room_length,
                *object,
                lending.pointer(owner),
                owner.len(),
                lending.pointer(group),
                group.len(),
                answer,
            );
        },
    }
}

pub fn undo(room: &mut [u8], answer: &mut [u32; 8], lending: &Lending) {
    let room_length = room.len();
    // SAFETY: as above.
    unsafe {
        pt_undo(
            lending.when_empty.pointer_mut(room),
            room_length,
            answer.as_mut_ptr(),
        );
    }
}

pub fn counts(room: &[u8], answer: &mut [u32; 8], lending: &Lending) {
    // SAFETY: as above.
    unsafe {
        pt_counts(
            lending.when_empty.pointer(room),
            room.len(),
            answer.as_mut_ptr(),
        )
    }
}

pub fn read_back(
    room: &[u8],
    part: Part,
    object: u32,
    out: &mut [u8],
    answer: &mut [u32; 8],
    lending: &Lending,
) {
    let call = match part {
        Part::List => pt_list,
        Part::Own => pt_own,
        Part::Data => pt_data,
    };
    let out_length = out.len();
    // SAFETY: as above.
    unsafe {
        call(
            lending.when_empty.pointer(room),
            room.len(),
            object,
            lending.when_empty.pointer_mut(out),
            out_length,
            answer.as_mut_ptr(),
        );
    }
}

/// Plays any call but the one that gives a length. `out` is looked at by
/// calls that read back.
pub fn play(
    call: &Call,
    room: &mut [u8],
    out: &mut [u8],
    answer: &mut [u32; 8],
    lending: &Lending,
) {
    match call {
        Call::Start { room_length, start } => {
            let lent = &mut room[..*room_length as usize];
            self::start(lent, start, answer, lending);
        }
        Call::Change(change) => self::change(room, change, answer, lending),
        Call::Undo => undo(room, answer, lending),
        Call::Counts => counts(room, answer, lending),
        Call::Read { part, object, .. } => {
            read_back(room, *part, *object, out, answer, lending);
        }
        Call::Room { .. } => unreachable!("it is asked without a room"),
    }
}
