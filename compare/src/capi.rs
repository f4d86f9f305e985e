//! The calls of the C library, wrapped so that what is lent is watched.

pub mod access;
pub mod condition;
pub mod lending;
pub mod script;
pub mod sidebyside;
pub mod tree;
pub mod wording;

use std::ffi::c_uint;
use std::ptr;

use lending::Lending;
use second::computing::Request;
use second::random::Random;

unsafe extern "C" {
    fn pt_identity(bytes: *const u8, length: usize) -> c_uint;
    fn pt_read(
        list: *const u8,
        list_length: usize,
        row: *mut u16,
        row_length: usize,
        answer: *mut c_uint,
    );
    fn pt_compute(
        rule: c_uint,
        settings: c_uint,
        mapping: *const c_uint,
        parent: *const u8,
        parent_length: usize,
        creator: *const u8,
        creator_length: usize,
        default_list: *const u8,
        default_length: usize,
        types: *const u8,
        types_length: usize,
        owner: *const u8,
        owner_length: usize,
        group: *const u8,
        group_length: usize,
        out: *mut u8,
        out_length: usize,
        answer: *mut c_uint,
    );
}

/// How a part of length 0 is passed.
#[derive(Clone, Copy, Debug, PartialEq, Eq)]
pub enum WhenEmpty {
    Null,
    Pointer,
}

impl WhenEmpty {
    pub fn draw(random: &mut Random) -> WhenEmpty {
        *random.pick(&[WhenEmpty::Null, WhenEmpty::Pointer])
    }

    fn pointer<T>(self, part: &[T]) -> *const T {
        if part.is_empty() && self == WhenEmpty::Null {
            ptr::null()
        } else {
            part.as_ptr()
        }
    }

    fn pointer_mut<T>(self, part: &mut [T]) -> *mut T {
        if part.is_empty() && self == WhenEmpty::Null {
            ptr::null_mut()
        } else {
            part.as_mut_ptr()
        }
    }
}

pub fn identity(bytes: &[u8], when_empty: WhenEmpty) -> u32 {
    // SAFETY: the pointer covers the length, or is null where the length is 0.
    unsafe { pt_identity(when_empty.pointer(bytes), bytes.len()) }
}

/// The answer begins as the caller gives it; all eight numbers are written.
pub fn read(list: &[u8], row: &mut [u16], answer: &mut [u32; 8], when_empty: WhenEmpty) {
    let row_length = row.len();
    // SAFETY: the pointers cover their lengths, or are null where a length is
    // 0; the three parts don't overlap, and the answer holds eight numbers.
    unsafe {
        pt_read(
            when_empty.pointer(list),
            list.len(),
            when_empty.pointer_mut(row),
            row_length,
            answer.as_mut_ptr(),
        );
    }
}

/// As `read`; the result goes into the room.
pub fn compute(request: &Request, room: &mut [u8], answer: &mut [u32; 8], lending: &Lending) {
    let room_length = room.len();
    // SAFETY: the pointers cover their lengths, or are null where a length is
    // 0; room and answer overlap nothing, what is only read may be one range.
    // The mapping holds four numbers and the answer eight.
    unsafe {
        pt_compute(
            request.rule,
            request.settings,
            lending.mapping(&request.mapping),
            lending.pointer(&request.parent),
            request.parent.len(),
            lending.pointer(&request.creator),
            request.creator.len(),
            lending.pointer(&request.default_list),
            request.default_list.len(),
            lending.pointer(&request.types),
            request.types.len(),
            lending.pointer(&request.owner),
            request.owner.len(),
            lending.pointer(&request.group),
            request.group.len(),
            lending.when_empty.pointer_mut(room),
            room_length,
            answer.as_mut_ptr(),
        );
    }
}
