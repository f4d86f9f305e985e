//! The calls that say who may open, and walk a list.

use std::ffi::c_uint;

use super::lending::Lending;
use second::access::Question;

unsafe extern "C" {
    fn pt_may_open(
        has_list: c_uint,
        list: *const u8,
        list_length: usize,
        object_type: *const u8,
        held: *const u8,
        held_length: usize,
        wanted: c_uint,
        answer: *mut c_uint,
    );
    fn pt_may_open_with(
        has_list: c_uint,
        list: *const u8,
        list_length: usize,
        object_type: *const u8,
        held: *const u8,
        held_length: usize,
        wanted: c_uint,
        table: *const u8,
        table_length: usize,
        answer: *mut c_uint,
    );
    fn pt_step(
        list: *const u8,
        list_length: usize,
        place: c_uint,
        entry: *mut c_uint,
        answer: *mut c_uint,
    );
}

pub fn may_open(question: &Question, answer: &mut [u32; 8], lending: &Lending) {
    // SAFETY: the pointers cover their lengths, or are null where a length is
    // 0; the answer overlaps nothing, what is only read may be one range. The
    // type has sixteen bytes, and the answer eight numbers.
    unsafe {
        pt_may_open(
            question.has_list,
            lending.pointer(&question.list),
            question.list.len(),
            lending.pointer(&question.object_type),
            lending.pointer(&question.held),
            question.held.len(),
            question.wanted,
            answer.as_mut_ptr(),
        );
    }
}

pub fn may_open_with(question: &Question, table: &[u8], answer: &mut [u32; 8], lending: &Lending) {
    // SAFETY: as above.
    unsafe {
        pt_may_open_with(
            question.has_list,
            lending.pointer(&question.list),
            question.list.len(),
            lending.pointer(&question.object_type),
            lending.pointer(&question.held),
            question.held.len(),
            question.wanted,
            lending.pointer(table),
            table.len(),
            answer.as_mut_ptr(),
        );
    }
}

pub fn step(
    list: &[u8],
    place: u32,
    entry: &mut [u32; 8],
    answer: &mut [u32; 8],
    lending: &Lending,
) {
    // SAFETY: as above; entry and answer hold eight numbers each.
    unsafe {
        pt_step(
            lending.pointer(list),
            list.len(),
            place,
            entry.as_mut_ptr(),
            answer.as_mut_ptr(),
        );
    }
}
